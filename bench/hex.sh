#!/bin/sh
# HEX texts through the library and through plain C: answers and what is left compared on good, damaged and random texts
# (seed and rounds may be given). With `speed` as the third word, also the time of export and import in both and the
# ratio (1.00 is as fast as plain C).
exec "$(dirname "$0")/run.sh" bench hex hex.c plainhex.c plain.c -- "${1:-1}" "${2:-20000}" ${3:+"$3"}
