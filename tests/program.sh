#!/usr/bin/env bash
# The real program over the real standard streams: what no contract can say of them. Ends with the number of checks.
set -u
cd "$(dirname "$0")/.." || exit 1
passed=0
failed=0
first=$'brick A (0:3)\nA = 7\nprint A\n'

# check NAME WANTED-STATUS WANTED-OUTPUT STATUS OUTPUT
check() {
    if [ "$2" = "$4" ] && [ "$3" = "$5" ]; then
        passed=$((passed + 1))
    else
        failed=$((failed + 1))
        printf 'FAILED %s: status %s (wanted %s), output %q (wanted %q)\n' "$1" "$4" "$2" "$5" "$3"
    fi
}

out=$(printf '%s' "$first" | ./pooma run 1); check 'the first script' 0 '7 7 7 7' $? "$out"
out=$(printf 'A = 7\n' | ./pooma run 1); check 'a refusal' 2 'refused line 1: name' $? "$out"
out=$(printf '%s' "$first" | ./pooma run 01); check 'words of no command' 1 '' $? "$out"
out=$(./pooma </dev/null); check 'no words' 1 '' $? "$out"
out=$(./pooma run 1 </dev/null); check 'an empty script' 0 '' $? "$out"
out=$(printf 'scalar a = 1 / 0\n' | ./pooma run 1); check 'a fault' 3 'fault line 1 at (): zero divisor' $? "$out"
out=$(printf 'scalar a = 1 / 0\n' | ./pooma check); check 'check, of a script' 0 'ok' $? "$out"
out=$(printf 'A = 7\n' | ./pooma check); check 'check, of none' 2 'refused line 1: name' $? "$out"
out=$(./pooma $'\xff' </dev/null); check 'a word that is no text' 7 '' $? "$out"
printf '%s' "$first" | ./pooma run 1 >&-; check 'standard output closed' 5 '' $? ''
printf '%s' "$first" | ./pooma run 1 >/dev/full; check 'a full device' 5 '' $? ''
out=$(./pooma run 1 <&-); check 'standard input closed' 4 '' $? "$out"
out=$(printf '%s' "$first" | { while IFS= read -r -n 1 -d '' byte; do printf '%s' "$byte"; done; } | ./pooma run 1)
check 'one byte at a time' 0 '7 7 7 7' $? "$out"
out=$(./pooma demo 1 2 1 <&-); check 'a demo, with standard input closed' 0 $'387072\n387072\n624640' $? "$out"
out=$(./pooma make 1 200 | ./pooma run 1); check 'a demo and its script' 0 "$(./pooma demo 1 200 1)" $? "$out"
for workers in 2 8; do
    out=$(./pooma demo 1 2 $workers); check "a demo on $workers workers" 0 $'387072\n387072\n624640' $? "$out"
    out=$(./pooma demo 1 200 $workers); check "a long demo on $workers workers" 0 "$(./pooma demo 1 200 1)" $? "$out"
done
out=$(printf '%s' "$first" | ./pooma run 64); check 'the most workers' 0 '7 7 7 7' $? "$out"
out=$(printf '%s' "$first" | ./pooma run 65); check 'one worker too many' 1 '' $? "$out"
out=$(./pooma run 1 </); check 'a directory as standard input' 4 '' $? "$out"
long=$'brick A (0:199999)\nA = index(0)\nprint A\n'
for workers in 1 4; do
    printf '%s' "$long" | ./pooma run $workers | head -c 1000 >/dev/null
    check "a reader that leaves early, on $workers" 5 '' "${PIPESTATUS[1]}" ''
done
out=$(tests/hostile/ends terminal); check 'a terminal' 0 'ends: 1 passed, 0 failed' $? "$out"
out=$(ulimit -v 65536 && exec taskset -c "$(taskset -cp $$ | grep -o '[0-9]*$')" crates/pooma/out/pooma run 64 <examples/heat.pooma)
check '64 workers on one processor with 64 MB' 0 "$(cat examples/heat.out)" $? "$out"
out=$(./pooma make 1 0); check 'a made script of no lines' 1 '' $? "$out"

# The longest made script: its length, as another program made it, and its time, as the best of five.
least=1000000
for _ in 1 2 3 4 5; do
    begin=${EPOCHREALTIME/[.,]/}
    out=$(crates/pooma/out/pooma make 2147483647 9000; echo "status $?")
    took=$((${EPOCHREALTIME/[.,]/} - begin))
    [ "$took" -ge "$least" ] || least=$took
done
check 'the longest made script' 0 "285914 status 0" 0 "$((${#out} - 8)) ${out##*$'\n'}"
check 'its time, below a tenth of a second' 0 1 0 "$((least < 100000))"

# status_of OUTPUT: the status that goes with an output, by its last line.
status_of() {
    case ${1##*$'\n'} in
    'refused line '*) echo 2 ;;
    'fault line '*) echo 3 ;;
    *) echo 0 ;;
    esac
}

for script in examples/*.pooma; do
    wanted=$(cat "${script%.pooma}.out")
    for workers in 1 4; do
        out=$(./pooma run $workers <"$script")
        status=$?
        check "$script on $workers" "$(status_of "$wanted")" "$wanted" $status "$out"
    done
done

# The examples of the documents: a block of a script, and behind it one of what it writes.
blocks=$(mktemp -d) || exit 1
trap 'rm -rf "$blocks"' EXIT
awk -v room="$blocks" '
    /^```pooma$/ { count++; file = room "/" count ".pooma"; next }
    /^```text$/ { file = room "/" count ".out"; next }
    /^```/ { file = ""; next }
    file { print > file }' docs/LANGUAGE.md docs/ARCHITECTURE.md README.md
for script in "$blocks"/*.pooma; do
    wanted=$(cat "${script%.pooma}.out")
    for workers in 1 4; do
        out=$(./pooma run $workers <"$script")
        status=$?
        check "example ${script##*/} of the documents on $workers" "$(status_of "$wanted")" "$wanted" $status "$out"
    done
done

# The README of each crate, against its sources.
out=$(tools/readmes --check)
status=$?
check "the crates' READMEs" 0 "${out##*$'\n'}" $status "$out"
echo "program: $passed passed, $failed failed"
[ "$failed" -eq 0 ]
