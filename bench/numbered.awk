# The least that a script player would do: it looks at the fields and numbers the lines, with no model behind it.
BEGIN { FS = "\t"; print "line\tq" }
NF == 2 && ($1 ~ /^[SCDWH]$/ && $2 ~ /^[01]$/ || $1 == "T" && $2 ~ /^(0|[1-9][0-9]*)$/) { print NR "\tZ"; next }
{ print NR "\tbad"; exit }
