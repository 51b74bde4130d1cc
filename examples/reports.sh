#!/bin/sh
# Compares what ./report prints for each folder of captures/ with the report.txt there.
set -eu
here=$(cd "$(dirname "$0")" && pwd)
room=$(mktemp -d)
trap 'rm -rf "$room"' EXIT
same=0
other=0
compare() { # FOLDER REPORT
    if "$here/../report" "$1" >"$room/printed" && cmp -s "$room/printed" "$2"; then
        same=$((same + 1))
    else
        other=$((other + 1))
        echo "$1: expected" && cat "$2" && echo "printed" && cat "$room/printed"
    fi
}
for folder in "$here"/captures/*/; do
    compare "$folder" "$folder/report.txt"
done

# A file that is too long, and one that is as long as a file may be.
mkdir "$room/long"
cp "$here/captures/h0/capture.mrk" "$room/long/capture.mrk"
{ cat "$here/captures/h0/capture.hst" && head -c 32681 /dev/zero; } >"$room/long/capture.hst"
echo 'history refused 1 byte 0' >"$room/report"
compare "$room/long" "$room/report"
{ cat "$here/captures/h0/capture.hst" && head -c 32680 /dev/zero; } >"$room/long/capture.hst"
echo 'history refused 2 byte 88' >"$room/report"
compare "$room/long" "$room/report"

# A head of edition 3, which is none.
mkdir "$room/other"
printf '\004\000\001\000\003\000' >"$room/other/capture.hst"
echo 'history refused 3 byte 0' >"$room/report"
compare "$room/other" "$room/report"

# A folder in a file's place cannot be read: nothing is printed, and the status says so.
mkdir -p "$room/unread/capture.hst"
if "$here/../report" "$room/unread" >"$room/printed" 2>/dev/null || [ -s "$room/printed" ]; then
    other=$((other + 1))
    echo 'a capture that cannot be read was reported on'
else
    same=$((same + 1))
fi
echo "reports: $same passed, $other failed"
[ "$other" -eq 0 ]
