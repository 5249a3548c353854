#!/usr/bin/env bash
# How many small works a second are requested, dispatched and released, as a table of Markdown: 40,000 over 256 objects on the
# machine alone, and then through the desk by 1, 2 and 4 threads, the most of five turns each. Where a work was lost, this fails.
set -eu
cd "$(dirname "$0")/../crates/pooma_bench"
# `rt run` proves and builds the program where it has changed, and then runs it
rt run -- machine 1 >/dev/null
report=$(out/pooma_bench desk 2>&1)
../../bench/host.sh
echo
echo '| through | works a second |'
echo '| --- | --- |'
sed -n 's/^\(.*\): \([0-9]*\) requests, dispatches and releases a second$/| \1 | \2 |/p' <<<"$report"
if [ "$(grep -c ', all done$' <<<"$report")" -ne 4 ]; then
    echo "not all works were done" >&2
    exit 1
fi
