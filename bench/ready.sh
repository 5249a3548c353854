#!/usr/bin/env bash
# How long a number takes through a deque of ready numbers, as a table of Markdown: a million numbers, each put and then taken by
# the owner, and each put and then stolen by the thief, the least of five turns. A figure above its bar is bold, and then this
# fails, as it does where a number did not come out as it was.
set -eu
cd "$(dirname "$0")/../crates/pooma_bench"
# `rt run` proves and builds the program where it has changed, and then runs it
rt run -- machine 1 >/dev/null
report=$(out/pooma_bench ready 2>&1)
../../bench/host.sh
echo
echo '| a number | nanoseconds | at most |'
echo '| --- | --- | --- |'
bad=0
row() {
    local picoseconds told
    picoseconds=$(sed -n "s/^$1: \([0-9]*\) picoseconds a number$/\1/p" <<<"$report")
    told=$(awk -v p="$picoseconds" 'BEGIN { printf "%.1f", p / 1000 }')
    if [ "$picoseconds" -gt $(($2 * 1000)) ]; then
        bad=1 told="**$told**"
    fi
    echo "| $1 | $told | $2 |"
}
row 'put and taken' 60
row 'put and stolen' 150
if [ "$(grep -c ': 1000000 of 1000000 numbers as they were$' <<<"$report")" -ne 2 ]; then
    echo "not all numbers came out as they were" >&2
    exit 1
fi
if [ $bad -ne 0 ]; then
    echo "a number took longer than it may" >&2
    exit 1
fi
