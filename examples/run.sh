#!/bin/sh
# Compiles the header as C99 and as C++, builds verdict.c and notes.c against the static library, compares what they print for each
# folder of captures/ with the report.txt and the notes.txt there, and has the first straighten some markings. The library is looked
# for in SENDOSHI_LIB_DIR, or else in target/staticlib.
set -eu
here=$(cd "$(dirname "$0")" && pwd)
include=$here/../include
archive=${SENDOSHI_LIB_DIR:-$here/../target/staticlib}/libsendoshi.a
room=$(mktemp -d)
trap 'rm -rf "$room"' EXIT
warnings='-Wall -Wextra -Wconversion -Wshadow -pedantic -Werror'

printf '#include "sendoshi.h"\nint main(void) { return (int)sendoshi_code(0); }\n' >"$room/header.c"
cp "$room/header.c" "$room/header.cpp"
${CC:-cc} -std=c99 $warnings -I"$include" -c "$room/header.c" -o "$room/header.o"
${CXX:-c++} -std=c++98 $warnings -Wno-long-long -I"$include" -c "$room/header.cpp" -o "$room/header.o"
${CXX:-c++} -std=c++17 $warnings -I"$include" -c "$room/header.cpp" -o "$room/header.o"
for program in verdict notes; do
    ${CC:-cc} -std=c99 -O2 $warnings -I"$include" "$here/$program.c" "$archive" -o "$room/$program"
done

ran=0
compare() { # FOLDER REPORT
    "$room/verdict" "$1" >"$room/printed"
    if ! cmp -s "$room/printed" "$2"; then
        echo "$1: expected" && cat "$2" && echo "printed" && cat "$room/printed"
        exit 1
    fi
    ran=$((ran + 1))
}
for folder in "$here"/captures/*/; do
    compare "$folder" "$folder/report.txt"
done

# A file that is too long, and one that is as long as a file may be.
mkdir "$room/long"
cp "$here/captures/h0/capture.mrk" "$room/long/capture.mrk"
{ cat "$here/captures/h0/capture.hst" && head -c 32681 /dev/zero; } >"$room/long/capture.hst"
echo 'history refused 1 byte 0' >"$room/report"
compare "$room/long" "$room/report"
{ cat "$here/captures/h0/capture.hst" && head -c 32680 /dev/zero; } >"$room/long/capture.hst"
echo 'history refused 2 byte 88' >"$room/report"
compare "$room/long" "$room/report"

# A head of edition 3, which is none.
mkdir "$room/other"
printf '\004\000\001\000\003\000' >"$room/other/capture.hst"
echo 'history refused 3 byte 0' >"$room/report"
compare "$room/other" "$room/report"

# The point at gap 2 is moved to its reader, which gives the marking of h0. That one is straight. The order of h7 justifies nothing: no
# file is written. The same with start values that are read, and with 0 read in the place of one.
straighten() { # FOLDER LINE
    rm -f "$room/straight"
    "$room/verdict" "$1" "$room/straight" >"$room/printed"
    { cat "$1/report.txt" && echo "$2"; } >"$room/report"
    cmp "$room/printed" "$room/report"
}
captures=$here/captures
straighten "$captures/h0-gap-2" 'straightened moved 1 event 9'
cmp "$room/straight" "$captures/h0/capture.mrk"
straighten "$captures/h0" 'straightened moved 0'
cmp "$room/straight" "$captures/h0/capture.mrk"
straighten "$captures/h7" 'straightened no'
[ ! -e "$room/straight" ] || { echo 'h7: a marking was written' && exit 1; }
straighten "$captures/starts" 'straightened moved 0'
cmp "$room/straight" "$captures/starts/capture.mrk"
straighten "$captures/starts-torn" 'straightened no'
[ ! -e "$room/straight" ] || { echo 'starts-torn: a marking was written' && exit 1; }

# A lone read of a pending writer's value, behind it at gap 1. Its point, the last two bytes, at gap 0 is before that writer.
mkdir "$room/careless"
cp "$captures/lone-pending/capture.hst" "$room/careless/capture.hst"
{ head -c 30 "$captures/lone-pending/capture.mrk" && printf '\000\000'; } >"$room/careless/capture.mrk"
sed 's/^marking accepted$/marking rule D event 4 transaction 1/' "$captures/lone-pending/report.txt" >"$room/careless/report.txt"
straighten "$room/careless" 'straightened moved 1 event 4'
cmp "$room/straight" "$captures/lone-pending/capture.mrk"
straighten "$captures/lone-gap-d" 'straightened no'
[ ! -e "$room/straight" ] || { echo 'lone-gap-d: a marking was written' && exit 1; }
echo "verdict.c: $ran captures, each with the report expected, and 7 markings straightened as expected"

# A capture without a notes.txt has no notes, or is refused: then the report's line is printed.
ran=0
with_notes=0
for folder in "$captures"/*/; do
    [ -e "$folder/capture.hst" ] || continue
    if [ -e "$folder/notes.txt" ]; then
        expected=$folder/notes.txt
        with_notes=$((with_notes + 1))
    else
        expected=$room/expected
        sed -n '/^history refused /p' "$folder/report.txt" >"$expected"
    fi
    "$room/notes" "$folder" >"$room/printed"
    cmp "$room/printed" "$expected"
    ran=$((ran + 1))
done
[ "$with_notes" -gt 0 ] || { echo 'no capture has notes' && exit 1; }
echo "notes.c: $ran captures, $with_notes with notes, each printed as expected"
