#!/usr/bin/env bash
# How long a window takes on the iterate machine, as a table of Markdown: 1,024 and 4,096 small works over 256 objects, all
# requested, then run and released one after another. Where the larger window takes 50 milliseconds or more in total, which is
# bold, this fails. Then how long an entry takes where all ask for one object: 65,536 that write it and 65,536 that read it, beside
# 4,096 over 256 objects, the least of three windows of each. Above 1.5 times as long, which is bold, this fails too.
set -eu
cd "$(dirname "$0")/../crates/pooma_bench"
limit=50000
# `rt run` proves and builds the program where it has changed, and then runs it
rt run -- machine 1 >/dev/null
../../bench/host.sh
echo
echo '| entries | µs requesting | running | finishing | in total, under 50,000 for 4,096 |'
echo '| --- | --- | --- | --- | --- |'
for entries in 1024 4096; do
    report=$(out/pooma_bench machine "$entries" 2>&1)
    total=$(sed -n 's/.* total //p' <<<"$report") told=$total
    [ "$entries" -ne 4096 ] || [ "$total" -lt $limit ] || told="**$total**"
    sed -n "s/^microseconds: requesting \(.*\), running \(.*\), finishing \(.*\), total .*/| $entries | \1 | \2 | \3 | $told |/p" <<<"$report"
done
if [ "$total" -ge "$limit" ]; then
    echo "$entries entries took $total microseconds, and have to take fewer than $limit" >&2
    exit 1
fi

report=$(out/pooma_bench queues 2>&1)
echo
echo '| entries | nanoseconds an entry | of many objects, at most 1.5 |'
echo '| --- | --- | --- |'
sed -n 's/^\(.*\): \([0-9]*\) nanoseconds an entry$/\1;\2/p' <<<"$report" |
    awk -F';' '
        NR == 1 { many = $2 > 0 ? $2 : 1 }
        {
            part = sprintf("%.2f", $2 / many)
            if ($2 > 1.5 * many) { part = "**" part "**"; bad = 1 }
            print "| " $1 " | " $2 " | " part " |"
        }
        END { exit bad }
    ' || { echo "an entry of one object takes longer than it may" >&2; exit 1; }
