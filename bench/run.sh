#!/usr/bin/env bash
# What scripts of several kinds cost with 1, 2 and 4 workers, as a table of Markdown: seconds and the most memory of each run,
# how many times the seconds of one worker that is, and how many times those of the same statements in NumPy, where
# python3-numpy is installed; NumPy's seconds are without its start. A figure past its bar is bold. Then this fails, and where a
# script prints another sum than it has to. The bars of four workers hold where there are four processors.
#
# bench/run.sh [PART]: with a number here each repeat has only that part of its turns, for a short try.
set -eu
cd "$(dirname "$0")/.."
part=${1:-1}
steps=$((20 / part > 0 ? 20 / part : 1)) turns=$((200000 / part)) windows=$((100000 / part))
kept=$(mktemp -d)
trap 'rm -rf "$kept"' EXIT
python='' failed=0 processors=$(nproc)
for one in python3 /usr/bin/python3; do
    if "$one" -c 'import numpy' 2>/dev/null; then python=$one && break; fi
done

# cost COMMAND..: runs it on standard input, and keeps its output, its seconds and its most memory in kilobytes.
cost() {
    /usr/bin/time -f '%e %M' -o "$kept/cost" "$@" >"$kept/output"
    read -r seconds memory <"$kept/cost"
    output=$(cat "$kept/output")
}

# run NAME TITLE: the script of this name, a row for each number of workers, and its NumPy program.
run() {
    local numpy=''
    title=$2
    for workers in 1 2 4; do
        cost ./pooma run "$workers" < <("$1")
        if [ "$workers" -eq 1 ]; then
            alone=$seconds printed=$output
            [ -z "$python" ] || numpy=$(beside "$1")
            [ -z "$python" ] || [ "$output" = "$(cat "$kept/sum")" ] || fail "prints $output, and NumPy $(cat "$kept/sum")"
        else
            [ "$output" = "$printed" ] || fail "prints $output with $workers workers, and $printed with one"
        fi
        bars=''
        "bars_$1"
        row "$title" "$workers" "$seconds" "$(quotient "$seconds" "$alone")" "$([ -z "$numpy" ] || quotient "$seconds" "$numpy")" "$memory" "$bars"
    done
}

# The seconds that NumPy itself takes, without its start; the sum goes into a file.
beside() {
    "$python" - 2>"$kept/numpy" >"$kept/sum" < <(
        echo 'import sys, time, numpy as np'
        echo 'begin = time.perf_counter()'
        "numpy_$1"
        echo 'print(f"{time.perf_counter() - begin:.3f}", file=sys.stderr)'
    )
    cat "$kept/numpy"
}

row() { printf '| %s ' "$@" && echo '|'; }

fail() {
    echo "$title: $1" >&2
    failed=1
}

# within VALUE BAR UNIT: puts the value into the row, and notes where it is past the bar.
within() {
    local told="$1 $3, of at most $2"
    if awk -v value="$1" -v bar="$2" 'BEGIN { exit value <= bar }'; then
        fail "$1 $3, and may take $2"
        told="**$told**"
    fi
    bars=${bars:+$bars; }$told
}

quotient() { awk -v a="$1" -v b="$2" 'BEGIN { if (b > 0) printf "%.2f", a / b; else printf "none" }'; }

# among_four BAR: the bar on the seconds of four workers, as so many times those of one.
among_four() {
    [ "$workers" -ne 4 ] || [ "$processors" -lt 4 ] || within "$(quotient "$seconds" "$alone")" "$1" 'times one worker'
}

# A step of heat has two statements, of which one has five reads and the other one.
heat() {
    cat <<END
layout Plate (0:1023,0:1023) blocks (4,4) external (1,1)
field U on Plate faces constant 1000000, constant 0, reflect, reflect
array V on Plate
U = (index(0) * 31 + index(1) * 17) % 1000
repeat $steps
V = U + (U[-1:1022,0:1023] + U[1:1024,0:1023] + U[0:1023,-1:1022] + U[0:1023,1:1024] - 4 * U) / 5
U = V
end
scalar total = sum(U)
print total
END
}

numpy_heat() {
    cat <<END
x, y = np.indices((1024, 1024))
u = (x * 31 + y * 17) % 1000
around = np.zeros((1026, 1026), np.int64)
for _ in range($steps):
    around[1:-1, 1:-1] = u
    around[0], around[-1], around[1:-1, 0], around[1:-1, -1] = 1000000, 0, u[:, 0], u[:, -1]
    change = around[:-2, 1:-1] + around[2:, 1:-1] + around[1:-1, :-2] + around[1:-1, 2:] - 4 * u
    v = u + np.sign(change) * (np.abs(change) // 5)
    u = v.copy()
print(u.sum())
END
}

# Many statements on a square of this side, in 16 blocks.
square() {
    cat <<END
layout Square (0:$((side - 1)),0:$((side - 1))) blocks (4,4)
array A on Square
repeat $turns
A += 1
end
scalar total = sum(A)
print total
END
}

numpy_square() {
    cat <<END
a = np.zeros(($side, $side), np.int64)
for _ in range($turns):
    a += 1
print(a.sum())
END
}

# One reduction: rows and columns cut it into a part for each cell.
parts() {
    cat <<END
layout Rows (0:249,0:239) blocks (250,1)
layout Columns (0:249,0:239) blocks (1,240)
array A on Rows
array B on Columns
A = index(0)
B = index(1)
scalar total = sum(A * B)
print total
END
}

numpy_parts() {
    cat <<END
a, b = np.indices((250, 240))
print((a * b).sum())
END
}

# The same, and each part also reads the only patch of a further array.
reads() {
    cat <<END
layout Rows (0:249,0:239) blocks (250,1)
layout Columns (0:249,0:239) blocks (1,240)
layout One (0:249,0:239) blocks (1,1)
array A on Rows
array B on Columns
array C on One
A = index(0)
B = index(1)
C = 1
scalar total = sum(A * B + C)
print total
END
}

numpy_reads() {
    cat <<END
a, b = np.indices((250, 240))
c = np.ones((250, 240), np.int64)
print((a * b + c).sum())
END
}

# A window for each scalar, beside so many arrays of so many patches that no window asks for.
scalars() {
    echo "layout Aside (0:255) blocks ($patches)"
    for number in $(seq "$arrays"); do echo "array A$number on Aside"; done
    cat <<END
scalar total = 0
repeat $windows
scalar total = total + 1
end
print total
END
}

numpy_scalars() {
    cat <<END
total = np.int64(0)
for _ in range($windows):
    total = total + 1
print(total)
END
}

# The greatest array that a script may have.
greatest() {
    cat <<END
layout Most (0:2047,0:2047) blocks (4,4)
array A on Most
A = index(0) * index(1)
scalar total = sum(A)
print total
END
}

numpy_greatest() {
    cat <<END
x, y = np.indices((2048, 2048))
a = x * y
print(a.sum())
END
}

bars_heat() {
    if [ "$workers" -eq 1 ]; then
        within "$seconds" 60 seconds
        # as another program found it
        [ $steps -ne 20 ] || [ "$output" = 2371025923 ] || fail "the sum is $output"
    fi
    among_four 0.4
    # two arrays with a guard layer around
    within "$(quotient $((memory - own)) $((2 * 1026 * 1026 * 8 / 1024)))" 2 'times the memory of the cells'
}

bars_square() {
    if [ "$workers" -eq 1 ]; then
        within "$(quotient "${seconds}e6" $((turns * 16)))" $((side == 64 ? 10 : 4)) 'microseconds an iterate'
    fi
    among_four 1.3
}

bars_parts() {
    if [ "$workers" -eq 1 ]; then
        within "$(quotient "${seconds}e6" 60000)" 6 'microseconds an iterate'
        bars="$bars; $(quotient $(((memory - own) * 1024)) 60000) bytes an iterate"
    fi
}

bars_reads() {
    [ "$workers" -ne 1 ] || bars="$(quotient "${seconds}e6" 60000) microseconds an iterate"
}

bars_scalars() {
    if [ "$workers" -eq 1 ] && [ $arrays -gt 1 ]; then
        within "$(quotient "$(awk -v a="$seconds" -v b="$few" 'BEGIN { print (a - b) * 1e9 }')" $((windows * 4095)))" 30 'nanoseconds an object'
    fi
}

bars_greatest() {
    within "$(quotient $((memory - own)) $((2048 * 2048 * 8 / 1024)))" 2 'times the memory of the cells'
}

cost ./pooma run 1 </dev/null # builds the program where it has to be
cost ./pooma run 1 </dev/null
own=$memory

bench/host.sh
echo
row script workers seconds 'times one worker' 'times NumPy' 'memory, kB' bars
row --- --- --- --- --- --- ---
row 'an empty script' 1 "$seconds" '' '' "$memory" ''
run heat "$steps steps of heat on 1024 x 1024 cells in 16 blocks"
for side in 64 16; do
    run square "$turns statements on $side x $side cells in 16 blocks"
done
run parts 'a reduction of 60,000 parts'
run reads 'a reduction of 60,000 parts that all read one patch'
patches=1 arrays=1
run scalars "$windows scalars beside one array of one patch"
few=$alone patches=256 arrays=16
run scalars "$windows scalars beside 16 arrays of 256 patches"
run greatest 'the greatest array'
exit $failed
