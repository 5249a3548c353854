#!/usr/bin/env bash
# Further wrong bodies that the prover must refuse: tests/edits/CRATE has those beside the ones in crates/CRATE/must-fail,
# which the gate tries. Give the crates whose contracts or bodies changed, or none for all. It prints a line for each edit,
# and ends with 1 where one is not refused. It works in a copy, and begins with what `rt check` kept of the crate.
set -u
cd "$(dirname "$0")/.." || exit 1
if [ $# -eq 0 ]; then
    set -- $(ls tests/edits)
fi
copy=$(mktemp -d) || exit 1
trap 'rm -rf "$copy"' EXIT
tar -cf - --exclude='crates/*/out' --exclude='crates/*/must-fail' crates crates.txt HANDLES | tar -xf - -C "$copy" || exit 1
for crate in "$@"; do
    cp -r "tests/edits/$crate" "$copy/crates/$crate/must-fail" || exit 1
done
cd "$copy" || exit 1
rt must-fail "$@" >log 2>&1
status=$?
sed -n 's/^rt: must-fail //p' log
if [ $status -ne 0 ]; then
    echo 'edits: not each was refused; all that rt said:' >&2
    cat log >&2
    exit 1
fi
