#!/usr/bin/env bash
# What the gate costs: for each crate the processor time of its proof, of its tests and runs, and of its must-fail edits, as a
# table of Markdown. Ends with 1 where a crate did not pass.
#
# bench/gate.sh [--keep] [CRATE..]: these crates, or all where none is given; those below them are measured too.
#
# Each crate goes through `rt ci` alone, with no edits but its own, as soon as the crates below it are proved, and the time is
# read at the lines that it prints between these parts. What has the most lines above it comes first. Those that go at once share the
# processors, so that each has one at least, and one that is alone has all.
# JOBS says how many may do so, as in `JOBS=2 bench/gate.sh`; without it as many as there are processors. The fewer, the less
# memory they want: 20 GB may not do for four of the largest. On more than one processor the proof of a crate and that of its
# tests go on side by side, so that these two figures are right as a sum alone.
#
# `rt` keeps what it proved beside the kit. So this works in a copy of the crates, with a kit of its own: links to the real
# one, and nothing beside them. All is proved from nothing, and nothing stays. With --keep it uses the machine's own kit, and
# the gate is done by the way: what passes is kept, and `rt ci` over the same files takes it from there, and only runs tests
# and programs. Where nothing was kept before, the figures are the same. What was kept before is not proved again; the table
# then says so of a crate, and counts only those of its edits that were tried here.
#
# The check before a crate's first edit begins with what checks in other copies of the repository on this machine kept, with or
# without --keep. So measure where no other copy was checked.
#
# What rt says of a crate that does not pass goes to standard error. Those that stand on it are left out, and the others go on.
set -u
cd "$(dirname "$0")/.." || exit 1
keep=''
[ "${1:-}" != --keep ] || { keep=yes && shift; }
kit=$(dirname "$(dirname "$(realpath "$(command -v rt)")")") || exit 1
work=$(mktemp -d) || exit 1
declare -A uses running=() held=()

# Ends what still runs, and leaves nothing behind.
end() {
    trap - EXIT
    [ ${#running[@]} -eq 0 ] || { kill "${running[@]}" && wait; } 2>/dev/null
    rm -rf "$work"
}
trap end EXIT
trap 'exit 130' INT
trap 'exit 143' TERM HUP

# rt runs programs and tests as nobody, below TMPDIR
chmod 711 "$work"
mkdir "$work/repo" "$work/state" "$work/tmp"
if [ -z "$keep" ]; then
    mkdir "$work/kit"
    for part in "$kit"/*; do
        ln -s "$part" "$work/kit/"
    done
    rm "$work/kit/bin"
    cp -al "$kit/bin" "$work/kit/bin" 2>/dev/null || cp -a "$kit/bin" "$work/kit/bin" || exit 1
    kit=$work/kit
fi
tar -cf - --exclude='crates/*/out' crates crates.txt HANDLES | tar -xf - -C "$work/repo" || exit 1

# The crates to measure, each after those that it stands on, and what each stands on, by crates.txt.
crates=''
while read -r name below; do
    uses[$name]=$below
    crates="$crates $name"
done < <(awk -F: -v wanted="$*" '
    /^[^#]/ { name = $1; sub(" .*", "", name); order[++count] = name; said[name] = $2 }
    function visit(name,   all, below, i, n) {
        if (seen[name]++) return
        n = split(said[name], all, " ")
        for (i = 1; i <= n; i++) if (all[i] in said) { visit(all[i]); below = below " " all[i] }
        print name below
    }
    END {
        n = split(wanted, names, " ")
        for (i = 1; i <= n; i++) visit(names[i])
        for (i = 1; i <= count && !n; i++) visit(order[i])
    }' crates.txt)

# lines CRATE: the lines of its src/ that are not blank, without tests.
lines() {
    local tests
    tests=$(cat "crates/$1"/src/*.rt | sed -n '/^#\[cfg(test)\]/{n;s/^mod \([a-z_]*\);/\1/p}')
    find "crates/$1/src" -name '*.rt' | while read -r file; do
        grep -qx "$(basename "$file" .rt)" <<<"$tests" || cat "$file"
    done | awk '/^#\[(cfg\(test\)|test)\]/ { skip = 1; next } skip { if (/^}/ || /;$/ && !/^ /) skip = 0; next } NF { n++ } END { print n + 0 }'
}

# The crates by the lines of the longest row of crates that stand on one another and on this one, most first.
declare -A above=()
for name in $(tac -s ' ' <<<"$crates"); do
    chain=$((${above[$name]:-0} + $(lines "$name")))
    for other in ${uses[$name]}; do
        [ "${above[$other]:-0}" -ge $chain ] || above[$other]=$chain
    done
done
by_weight=$(for name in $crates; do echo "${above[$name]:-0} $name"; done | sort -srn | cut -d' ' -f2)

# measure CRATE PROCESSORS: writes its row to the state, or what rt said where it does not pass.
measure() {
    local pid line at=0 before=0 proof=0 tests=0 whole=0 edits=0 count=0
    # the other crates' edits are tried where these are measured
    cp -al "$work/repo" "$work/of.$1" || return 1
    find "$work/of.$1/crates" -name must-fail ! -path "*/$1/must-fail" -exec rm -r {} +
    mkfifo "$work/$1.lines"
    (cd "$work/of.$1" && TMPDIR=$work/tmp exec taskset -c "$2" "$kit/bin/rt" ci "$1") >"$work/$1.lines" 2>&1 &
    pid=$!
    trap 'kill "$pid"; exit 1' TERM
    # hundredths of a second of the run and of all that it waited for, since the last part ended
    part() {
        local spent
        spent=$(sed 's/.*) //' "/proc/$pid/stat" 2>/dev/null | awk '{ print $12 + $13 + $14 + $15 }')
        at=$((${spent:-$before} - before))
        before=$((before + at))
    }
    while IFS= read -r line; do
        echo "$line" >>"$work/$1.log"
        case $line in
        "rt: $1 is kept: "*) part; proof=kept; touch "$work/state/$1.proved" ;;
        "rt: $1 proved") part; proof=$at; touch "$work/state/$1.proved" ;;
        "rt: $1: its tests are proved") part; tests=$at ;;
        # of a crate below, which has a row of its own
        *' is kept: '* | 'rt: '*' proved') part ;;
        "rt: $1: trying its must-fail edits ("*) part; whole=$at; count=${line##*(}; count=${count%)} ;;
        "rt: must-fail $1/"*) [ "$edits" -gt 0 ] || { part; edits=$at; } ;;
        *' passed, '*) part; tests=$((tests + at)) ;;
        esac
    done <"$work/$1.lines"
    if wait "$pid"; then
        echo "$1 $(lines "$1") $proof $tests $whole $edits $count" >"$work/state/$1.row"
    else
        { echo "gate: $1 did not pass; what rt said:" && cat "$work/$1.log"; } >&2
        return 1
    fi
}

# The crates that are not begun, and wait for no proof; first those with the most lines above them.
ready() {
    local name other
    for name in $by_weight; do
        [ ! -e "$work/state/$name.begun" ] || continue
        for other in ${uses[$name]}; do
            [ -e "$work/state/$other.proved" ] || continue 2
        done
        echo "$name"
    done
}

# begin CRATE AMONG: begins with a crate on its share of the free processors, where so many crates may begin now.
begin() {
    local count=$((${#free[@]} / $2))
    local share=("${free[@]:0:count > 0 ? count : 1}")
    free=("${free[@]:${#share[@]}}")
    touch "$work/state/$1.begun"
    { measure "$1" "$(IFS=, && echo "${share[*]}")"; touch "$work/state/$1.ended"; } &
    running[$1]=$! held[$1]=${share[*]}
}

mapfile -t free < <(taskset -cp $$ | sed 's/.*: //' | tr ',' '\n' | awk -F- '{ for (i = $1; i <= ($2 == "" ? $1 : $2); i++) print i }')
most=${JOBS:-${#free[@]}}
while :; do
    mapfile -t waiting < <(ready)
    room=$((most - ${#running[@]}))
    if [ ${#waiting[@]} -gt 0 ] && [ $room -gt 0 ] && [ ${#free[@]} -gt 0 ]; then
        begin "${waiting[0]}" $((${#waiting[@]} < room ? ${#waiting[@]} : room))
    elif [ ${#running[@]} -gt 0 ]; then
        # until a crate is proved, or one ends
        sleep 1
        for name in "${!running[@]}"; do
            [ -e "$work/state/$name.ended" ] || continue
            [ ! -e "$work/state/$name.row" ] || echo "gate: measured $name" >&2
            read -ra share <<<"${held[$name]}"
            free+=("${share[@]}")
            unset "running[$name]" "held[$name]"
        done
    else
        break
    fi
done

echo '| crate | lines | proof | tests and runs | first edit | each further edit | edits | in all | minutes for 1,000 lines |'
echo '|---|---|---|---|---|---|---|---|---|'
lost=''
for crate in $crates; do
    cat "$work/state/$crate.row" 2>/dev/null || lost="$lost $crate"
done > >(awk '
    function row(name, lines, proof, tests, first, more, edits, all) {
        printf "| %s | %d | %s | %.0f | %s | %s | %d | %.0f | %s |\n", name, lines, proof, tests, first, more, edits, all, lines ? sprintf("%.1f", all / 60 / lines * 1000) : ""
    }
    {
        proof = $3 / 100; tests = $4 / 100; edits = ($5 + $6) / 100
        each = $7 ? $6 / 100 / $7 : 0
        row("`" $1 "`", $2, $3 == "kept" ? $3 : sprintf("%.0f", proof), tests, $7 ? sprintf("%.0f", $5 / 100 + each) : "", $7 > 1 ? sprintf("%.0f", each) : "", $7, proof + tests + edits)
        l += $2; p += proof; t += tests; n += $7; e += edits
    }
    END { row("whole", l, sprintf("%.0f", p), t, "", "", n, p + t + e) }')
wait $!
[ -z "$lost" ] || { echo "gate: not measured:$lost" >&2 && exit 1; }
