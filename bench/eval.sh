#!/usr/bin/env bash
# How long codes take at a million positions held in plain vectors, beside loops written by hand over the same checked
# arithmetic, as a table of Markdown: the least of seven turns each. Where a code takes more than 25 times as long as its loop,
# which is bold, or comes to something else, this fails.
set -eu
cd "$(dirname "$0")/../crates/pooma_bench"
# `rt run` proves and builds the program where it has changed, and then runs it
rt run -- machine 1 >/dev/null
report=$(out/pooma_bench eval 2>&1)
../../bench/host.sh
echo
awk '
    function row(what, code, by_hand, ratio) { print "| " what " | " code " | " by_hand " | " ratio " |" }
    function fail(why) { print why > "/dev/stderr"; failed = 1 }
    BEGIN {
        row("code", "ns a position", "by hand", "ratio, at most 25")
        row("---", "---", "---", "---")
    }
    / picoseconds a position by code, / {
        name = $0
        sub(/: [0-9]+ picoseconds .*/, "", name)
        split(substr($0, length(name) + 3), words, " ")
        ratio = sprintf("%.1f", words[1] / (words[7] ? words[7] : 1))
        if (ratio + 0 > 25) fail(name ": " ratio " times as long as its loop, and may take 25 times as long")
        row(name, sprintf("%.2f", words[1] / 1000), sprintf("%.2f", words[7] / 1000), ratio + 0 > 25 ? "**" ratio "**" : ratio)
        rows++
    }
    / something else$/ { fail("a code and its loop came to different sums") }
    END {
        if (rows != 3) fail("not everything was measured")
        exit failed
    }' <<<"$report"
