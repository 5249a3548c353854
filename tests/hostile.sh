#!/usr/bin/env bash
# Hostile use of the real program, which takes minutes and so stands outside the gate: scripts at every limit at once, real ends that
# leave, fail or are slow, a machine that has little, each read and each write refused in turn, and the table of all public calls. `bench/check.sh`
# measures hostile scripts, and `bench/refuse-memory.sh` refuses each call for memory. Ends with 1 where any of it fails.
set -u
cd "$(dirname "$0")/.." || exit 1
./pooma check </dev/null >/dev/null || exit 1 # builds the program where it has to be
failed=0
for part in 'tools/calls --check' tests/hostile/limits tests/hostile/ends 'tests/hostile/refuse ends --most 240'; do
    $part || { echo "hostile: FAILED $part"; failed=1; }
done
exit $failed
