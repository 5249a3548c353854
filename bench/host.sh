#!/usr/bin/env bash
# Names the machine in a line, to stand above what was measured on it.
set -eu
name=$(sed -n 's/^model name[^:]*: *//p' /proc/cpuinfo | head -n 1)
memory=$(awk '/^MemTotal:/ { printf "%.0f", $2 / 1024 / 1024 }' /proc/meminfo)
echo "On this machine: ${name:-a processor that does not name itself}, $(nproc) processors, $memory GB of memory."
