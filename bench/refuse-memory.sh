#!/usr/bin/env bash
# Refuses each call for memory of a run in turn, one a run, over the examples and some scripts more, with 1 and 2 workers: each run
# has to answer as without a refusal, or with status 6 and a front of that output. Words go on to tests/hostile/refuse, as `--most N`
# for the calls that are tried of a script. It takes minutes, and wants a C compiler, so it stands outside the gate.
set -eu
cd "$(dirname "$0")/.."
./pooma check </dev/null >/dev/null # builds the program where it has to be
bench/host.sh
echo
exec tests/hostile/refuse growth "$@"
