#!/bin/sh
# hexfile.sh: the program hexfile on images and texts: out against a text made by od and awk, in against the image, over
# an image, the longest texts, bad texts; and byte for byte against srec_cat (Debian: srecord) and Python's intelhex
# (Debian: python3-intelhex) where they are installed. Says which of the two is missing.
set -eu
here=$(cd "$(dirname "$0")" && pwd)
root=$(dirname "$here")
log=$root/target/hexfile.log
mkdir -p "$root/target"
"$root/tools/build.sh" hexfile >"$log" 2>&1 || {
    cat "$log" >&2
    exit 1
}
work=$(mktemp -d)
trap 'rm -rf "$work"' EXIT
cd "$work"

hexfile() {
    case $(uname -m) in
    aarch64)
        kit=$(dirname "$(rt doc)")/on/aarch64/toolchain
        "$kit/bin/qemu-x86_64" "$kit/lib/ld-linux-x86-64.so.2" --library-path "$kit/lib" \
            "$root/target/bin/hexfile" "$@"
        ;;
    *) "$root/target/bin/hexfile" "$@" ;;
    esac
}

same() { # WHAT FILE FILE
    cmp "$2" "$3" || {
        echo "hexfile.sh: $1: differs" >&2
        exit 1
    }
    echo "$1: the same"
}

head -c 65536 /dev/urandom >random.bin
head -c 65536 /dev/zero | tr '\0' '\377' >blank.bin

# the text of an image, another way
text_of() { # IMAGE
    od -An -v -tu1 -w16 "$1" | awk '
        { a = 16 * (NR - 1); s = 16 + int(a / 256) + a % 256
          line = sprintf(":10%04X00", a)
          for (i = 1; i <= 16; i++) { line = line sprintf("%02X", $i); s += $i }
          printf "%s%02X\n", line, (256 - s % 256) % 256 }
        END { print ":00000001FF" }'
}

# the other tools: each makes the text of an image, with so many bytes a record, and the image of a text
srec_cat_text() { # IMAGE TEXT BYTES
    srec_cat "$1" -binary -o "$2" -intel -obs="$3" -address-length=2
}

srec_cat_image() { # TEXT IMAGE
    srec_cat "$1" -intel -o "$2" -binary
}

intelhex_text() { # IMAGE TEXT BYTES
    "$python" -c '
import intelhex, sys
h = intelhex.IntelHex()
h.loadbin(sys.argv[1])
with open(sys.argv[2], "w", newline="\n") as f:
    h.write_hex_file(f, write_start_addr=False, eolstyle="native", byte_count=int(sys.argv[3]))' "$1" "$2" "$3"
}

intelhex_image() { # TEXT IMAGE
    "$python" -c '
import intelhex, sys
intelhex.IntelHex(sys.argv[1]).tobinfile(sys.argv[2])' "$1" "$2"
}

tools=
if command -v srec_cat >/dev/null 2>&1; then
    tools=srec_cat
else
    echo "srec_cat: not installed, not compared"
fi
# Debian's intelhex is for its own Python, which may not be the first
python=
for each in python3 /usr/bin/python3; do
    if [ -z "$python" ] && "$each" -c 'import intelhex' >/dev/null 2>&1; then
        python=$each
        tools="$tools intelhex"
    fi
done
[ -n "$python" ] || echo "intelhex: not installed, not compared"

for image in random blank; do
    hexfile out $image.bin $image.hex
    text_of $image.bin >$image.awk
    same "$image image to text" $image.hex $image.awk
    hexfile in $image.hex $image.back
    same "$image text to image" $image.back $image.bin
    for tool in $tools; do
        ${tool}_text $image.bin $image.$tool 16
        same "$image image to text, $tool" $image.hex $image.$tool
        ${tool}_image $image.hex $image.$tool
        same "$image text to image, $tool" $image.$tool $image.bin
        for bytes in 1 5 32 255; do
            ${tool}_text $image.bin $image.$tool $bytes
            hexfile in $image.$tool $image.back
            same "$image text of $tool to image, records of $bytes" $image.back $image.bin
        done
    done
done

# over an image: three cells of the random one, and nothing else
printf ':0300300002337A1E\n:00000001FF\n' >small.hex
hexfile in small.hex over.bin random.bin
{
    head -c 48 random.bin
    printf '\002\063\172'
    tail -c +52 random.bin
} >wanted.bin
same "three cells over an image" over.bin wanted.bin
hexfile in "$root/examples/small.hex" - | od -Ax -tx1 >small.od
same "examples/small.hex" small.od "$root/examples/small.od"
hexfile out random.bin - >dash.hex
same "to standard output" dash.hex random.hex

# a text with one byte a record, then the first MORE records again, the last of them with ZEROS bytes 00h after its own:
# 917,516 bytes, 14 for each of MORE and 2 for each of ZEROS
ones() { # BYTES MORE ZEROS: makes ones.hex, of so many bytes
    od -An -v -tu1 -w1 random.bin | awk -v more="$2" -v zeros="$3" '
        function record(address, n,   sum, line, i) {
            sum = n + int(address / 256) + address % 256 + cells[address]
            line = sprintf(":%02X%04X00%02X", n, address, cells[address])
            for (i = 1; i < n; i++) line = line "00"
            printf "%s%02X\n", line, (256 - sum % 256) % 256 }
        { cells[NR - 1] = $1 + 0; record(NR - 1, 1) }
        END { for (k = 1; k <= more; k++) record(k - 1, k < more ? 1 : 1 + zeros)
              print ":00000001FF" }' >ones.hex
    [ "$(wc -c <ones.hex)" = "$1" ] || {
        echo "hexfile.sh: a text of $(wc -c <ones.hex) bytes, not $1" >&2
        exit 1
    }
}

ones_same() { # WHAT MORE ZEROS: the cells that ones.hex gives
    {
        head -c "$2" random.bin
        head -c "$3" /dev/zero
        tail -c +$(($2 + $3 + 1)) random.bin
    } >wanted.bin
    hexfile in ones.hex ones.bin
    same "$1" ones.bin wanted.bin
}

ones 917516 0 0
ones_same "a text of 917,516 bytes, records of 1" 0 0
ones 1048574 9361 2
ones_same "a text of 1,048,574 bytes" 9361 2
ones 1048576 9361 3
ones_same "a text of 1,048,576 bytes, the longest" 9361 3

# what is refused leaves no file, and an old one as it was
said() { # WHAT MESSAGE WORD..
    what=$1
    message=$2
    shift 2
    cp blank.bin kept.bin
    hexfile "$@" 2>said.txt >&2 || true
    grep -q -- "$message" said.txt || {
        echo "hexfile.sh: $what: said: $(cat said.txt)" >&2
        exit 1
    }
    cmp kept.bin blank.bin
    [ "$(ls | grep -c 'kept')" = 1 ] || {
        echo "hexfile.sh: $what: left a file" >&2
        exit 1
    }
    echo "$what: $message"
}

sed '100s/^:10/:11/' random.hex >bad.hex
said "a length that lies" "line 100 is bad" in bad.hex kept.bin
tr 'A-F' 'a-f' <random.hex >bad.hex
said "lower case" "line 1 is bad" in bad.hex kept.bin
sed 's/$/\r/' random.hex >bad.hex
said "CR LF" "line 1 is bad" in bad.hex kept.bin
sed '$d' random.hex >bad.hex
said "no closing record" "line 4097 is bad" in bad.hex kept.bin
{ cat random.hex; echo; } >bad.hex
said "a line after the end" "line 4098 is bad" in bad.hex kept.bin
: >bad.hex
said "an empty text" "line 1 is bad" in bad.hex kept.bin
{ cat ones.hex; echo; } >bad.hex
said "a text of 1,048,577 bytes" "too long: a text has at most 1,048,576 bytes" in bad.hex kept.bin
ones 1048578 9361 4
said "a good text of 1,048,578 bytes" "too long: a text has at most 1,048,576 bytes" in ones.hex kept.bin
said "no such text" "No such file" in none.hex kept.bin
head -c 65535 random.bin >bad.bin
said "an image one byte short" "an image has 65,536 bytes" out bad.bin kept.bin
{ cat random.bin; echo; } >bad.bin
said "an image one byte too long" "too long: an image has 65,536 bytes" out bad.bin kept.bin
said "a text over no image" "No such file" in random.hex kept.bin none.bin
said "another word" "hexfile --help" both random.bin kept.bin
echo "hexfile.sh: ok"
