#!/usr/bin/env bash
# How long patches, stores and pieces take, as a table of Markdown: cells of a square of 1024 x 1024 in 16 patches that are
# written and read, beside a plain vector; 65,536 objects that are lent and taken back; two pieces over 256 x 256 positions,
# beside loops by hand over the same checked arithmetic; and the pieces of a reduction of 4,096 parts, as they are made. The
# least of seven turns each. A figure past its bar is bold. Then this fails, and where something else comes out.
set -eu
cd "$(dirname "$0")/../crates/pooma_bench"
# `rt run` proves and builds the program where it has changed, and then runs it
rt run -- machine 1 >/dev/null
report=$(for what in cells lending pieces splitting; do out/pooma_bench $what; done 2>&1)
../../bench/host.sh
echo
awk '
    function row(what, takes, by_hand, ratio) { print "| " what " | " takes " | " by_hand " | " ratio " |" }
    function of_cell(picoseconds) { return sprintf("%.2f ns a cell", picoseconds / 1000) }
    function fail(why) { print why > "/dev/stderr"; failed = 1 }
    # a figure with its bar, which is what it may be at most, or what it has to be under
    function within(text, value, how, bar) {
        text = text ", " how " " bar
        if (value < bar || value == bar && how == "at most") return text
        fail(name ": " text " is missed")
        return "**" text "**"
    }
    BEGIN {
        row("what", "takes", "a plain vector", "ratio")
        row("---", "---", "---", "---")
        bars["A + B * 3"] = bars["five-point mean"] = 30
    }
    { name = $0; sub(/: .*/, "", name) }
    / picoseconds a cell, / {
        split(substr($0, length(name) + 3), words, " ")
        ratio = sprintf("%.1f", words[1] / (words[5] ? words[5] : 1))
        row(name, of_cell(words[1]), of_cell(words[5]), name in bars ? within(ratio, ratio + 0, "at most", bars[name]) : ratio)
        rows++
    }
    /^(lent|taken back): [0-9]+ microseconds$/ {
        took = $(NF - 1) / 1000
        row("65,536 objects " name, within(sprintf("%.2f ms", took), took, "under", 5))
        rows++
    }
    / nanoseconds a piece$/ {
        took = $(NF - 3) / 1000
        row("pieces of 4,096 parts", within(sprintf("%.2f µs a piece", took), took, "at most", 2))
        rows++
    }
    / something else$/ { fail(name ": another sum than by hand") }
    /^lent and taken back: / && $5 != 65536 { fail("not all objects were lent") }
    /^a reduction: .* pieces$/ && $3 != 4096 { fail("the reduction has " $3 " pieces") }
    END {
        if (rows != 8) fail("not everything was measured")
        exit failed
    }' <<<"$report"
