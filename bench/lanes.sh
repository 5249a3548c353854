#!/usr/bin/env bash
# How long the kernels of whole rows take, as a table of Markdown: each over 1,048,576 numbers in rows of 64, 256 and 4,096, in
# nanoseconds a number, and what part that is of a loop by hand over plain slices with checked arithmetic, the least of five turns
# of each. A part above the kernel's bar is bold, and then this fails, as it does where a loop by hand came to something else.
set -eu
cd "$(dirname "$0")/../crates/pooma_bench"
# `rt run` proves and builds the program where it has changed, and then runs it
rt run -- machine 1 >/dev/null
report=$(out/pooma_bench rows 2>&1)
../../bench/host.sh
echo
echo '| kernel | rows of 64: ns | of by hand | rows of 256: ns | of by hand | rows of 4,096: ns | of by hand | at most |'
echo '| --- | --- | --- | --- | --- | --- | --- | --- |'
sed -n 's/^\(.*\) in rows of \([0-9]*\): \([0-9]*\) picoseconds a number by lanes, [0-9]* by hand, \([0-9]*\) hundredths$/\1;\3;\4/p' <<<"$report" |
    awk -F';' '
        BEGIN {
            split("addition subtraction minimum maximum comparison and or selection", equal, " ")
            for (i in equal) bar[equal[i]] = 1.2
            bar["multiplication"] = 1.5
            bar["division by one number"] = bar["remainder by one number"] = 0.5
        }
        $1 != kernel { if (kernel) print line " " told " |"; kernel = $1; line = "| " $1 " |"; told = ($1 in bar) ? bar[$1] : "-" }
        {
            part = sprintf("%.2f", $3 / 100)
            if (($1 in bar) && $3 > bar[$1] * 100) { part = "**" part "**"; bad = 1 }
            line = line sprintf(" %.2f | %s |", $2 / 1000, part)
        }
        END { if (kernel) print line " " told " |"; exit bad }
    ' || { echo "a kernel takes longer than it may" >&2; exit 1; }
if [ "$(grep -c ' numbers in rows, by hand the same$' <<<"$report")" -ne 15 ]; then
    echo "a loop by hand came to something else" >&2
    exit 1
fi
