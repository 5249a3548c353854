#!/usr/bin/env bash
# How long reading takes, and what memory, where it has most to do: the whole of a script is looked at, and nothing is run. Prints a
# table of Markdown; where a script takes a second or 200 MB, which is bold, and is none that is known to, this ends with 1.
set -eu
cd "$(dirname "$0")/.."
./pooma check </dev/null >/dev/null # builds the program where it has to be
bench/host.sh
echo
exec bench/hostile-scripts --check crates/pooma/out/pooma
