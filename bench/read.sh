#!/usr/bin/env bash
# How fast a script is read, as a table of Markdown: one comment of 1,048,576 bytes, and 10,000 lines of seven bytes each with a line end.
# The memory of each run is limited to 64 MB, so a run that needs more fails here.
set -eu
cd "$(dirname "$0")/.."
./pooma run 1 </dev/null
program=crates/pooma/out/pooma
scripts=$(mktemp -d)
trap 'rm -rf "$scripts"' EXIT
{ printf '#'; head -c 1048575 /dev/zero | tr '\0' x; } >"$scripts/comment"
for _ in $(seq 10000); do printf '#rint A\n'; done >"$scripts/lines"
bench/host.sh
echo
echo '| script | bytes | microseconds | bytes a second |'
echo '| --- | --- | --- | --- |'
for name in comment lines; do
    bytes=$(wc -c <"$scripts/$name")
    begin=$(date +%s%N)
    (ulimit -v 65536 && "$program" run 1 <"$scripts/$name")
    end=$(date +%s%N)
    echo "| $name | $bytes | $(((end - begin) / 1000)) | $((bytes * 1000000000 / (end - begin))) |"
done
