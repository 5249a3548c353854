#!/usr/bin/env bash
# The first run of `./pooma`, over a repository of three small crates in a temporary folder: without `rt`, two at once with
# standard error in a file, one that is interrupted, with files that cannot grow, and with one source that is not proved among others
# that are; a look with nothing proved, and what is installed. Ends with the number of checks.
set -u
cd "$(dirname "$0")/.." || exit 1
room=$(mktemp -d) || exit 1
trap 'rm -rf "$room"' EXIT
cp -r pooma HANDLES tools "$room"
mkdir "$room/docs" && cp docs/pooma.1 "$room/docs"
editors=$(tools/editors/make --check 2>&1)
editors_status=$?
cd "$room" || exit 1
mkdir -p crates/below/src crates/beside/src crates/pooma/src crates/pooma_tests/src
printf '# lowest first\nbelow:\nbeside:\npooma: below beside\npooma_tests: below\n' >crates.txt
cat >crates/below/src/lib.rt <<'RATTLE'
#![tactic(auto)]

ghost use Rattle.std.specs.Prelude.{◌≡◌};

/// What the program prints.
pub fn answer() -> u32
    ensures { result ≡ 42 }
{
    42
}
RATTLE
sed 's/42/8/; s/answer/width/; s/What the program prints/How wide that is/' crates/below/src/lib.rt >crates/beside/src/lib.rt
# a crate that the program does not stand on, which is not proved
sed 's/    42$/    41/' crates/below/src/lib.rt >crates/pooma_tests/src/lib.rt
cat >crates/pooma/src/main.rt <<'RATTLE'
#![tactic(auto)]

use below::answer;
use beside::width;
use std::io;

fn main(rt: HostRuntime) -> io::Result<()> {
    println!(rt; "{} {}", answer(), width())
}
RATTLE
passed=0
failed=0

# check NAME COMMAND..: the command has to succeed.
check() {
    if "${@:2}"; then
        passed=$((passed + 1))
    else
        failed=$((failed + 1))
        echo "FAILED $1"
    fi
}

without_rt=$(tr ':' '\n' <<<"$PATH" | while read -r folder; do [ -x "$folder/rt" ] || printf '%s:' "$folder"; done)
out=$(PATH=$without_rt ./pooma run 1 2>said)
check 'without rt: the status' [ $? -eq 69 ]
check 'without rt: no output' [ -z "$out" ]
check 'without rt: what to do' grep -q 'PATH=KIT/bin' said

check "the editors' colours: $editors" [ $editors_status -eq 0 ]

PATH=$without_rt tools/try run 1 >out 2>said
check 'a look without rt: the status' [ $? -eq 69 ]
tools/try run 1 >out 2>said </dev/null
check 'a look: the status' [ $? -eq 0 ]
check 'a look: the output alone' [ "$(cat out)" = '42 8' ]
check 'a look: what it says' [ "$(cat said)" = 'pooma: nothing is proved of this run; ./pooma proves and builds the program' ]
check 'a look: nothing is built' [ ! -e crates/pooma/out/pooma ]

(ulimit -f 8; ./pooma run 1 2>said >out)
check 'files that cannot grow: the status' [ $? -eq 70 ]
check 'files that cannot grow: no output' [ ! -s out ]
check 'files that cannot grow: no program' [ ! -e crates/pooma/out/pooma ]

setsid ./pooma run 1 >out 2>said &
first=$!
until grep -q '^pooma: proving and building, 1 of 3' said; do sleep 0.2; done
kill -TERM "$first"
wait "$first"
check 'interrupted: the status' [ $? -eq 143 ]
check 'interrupted: nothing goes on' [ -z "$(pgrep -f "^[^ ]*rattle .*--crate-name (below|beside|pooma) .*" -s "$first")" ]

./pooma run 1 >first.out 2>first.said &
first=$!
./pooma run 1 >second.out 2>second.said
check 'two at once: the status of one' [ $? -eq 0 ]
wait $first
check 'two at once: the status of the other' [ $? -eq 0 ]
check 'two at once: both outputs' [ "$(cat first.out second.out)" = $'42 8\n42 8' ]
check 'two at once: one waits' [ "$(grep -c 'waiting for another run' first.said second.said | cut -d: -f2 | sort | tr -d '\n')" = 01 ]
check 'two at once: one builds' [ "$(cat first.said second.said | grep -c '^pooma: proving and building, 3 of 3 crates done')" -eq 1 ]

out=$(./pooma run 1 2>said)
check 'built: the output alone' [ "$out$(cat said)" = '42 8' ]

tools/install "$room/usr" >out 2>said
check 'installed: the status' [ $? -eq 0 ]
check 'installed: nothing said' [ -z "$(cat out said)" ]
mv crates away
check 'installed: it needs no repository' [ "$(cd / && "$room/usr/bin/pooma" run 1)" = '42 8' ]
mv away crates
check 'installed: the page' cmp -s docs/pooma.1 usr/share/man/man1/pooma.1
check 'installed: the picture tool' [ -x usr/bin/pooma-picture ]
tools/install --remove "$room/usr"
check 'removed: the status' [ $? -eq 0 ]
check 'removed: all of it' [ -z "$(find usr -type f)" ]
tools/install --what 2>said
check 'installing what is no folder: the status' [ $? -eq 1 ]

sed -i 's/^    42$/    43/' crates/below/src/lib.rt
sed -i 's/How wide/How very wide/' crates/beside/src/lib.rt
out=$(./pooma run 1 2>said)
check 'not proved: the status' [ $? -eq 70 ]
check 'not proved: no output' [ -z "$out" ]
check 'not proved: the file is named' grep -q "below was not proved or not built; $(pwd)/.build/below.log has" said
check 'not proved: its last lines' [ "$(tail -n 1 said)" = "$(tail -n 1 .build/below.log)" ]
check 'not proved: what stands beside it is' grep -qx 'beside: ok' .build/build.log

sed -i 's/^}$/} }/' crates/below/src/lib.rt
tools/try run 1 >out 2>said </dev/null
check 'a look at what is none: the status' [ $? -eq 70 ]
check 'a look at what is none: no output' [ ! -s out ]
check 'a look at what is none: the file is named' grep -q "$(pwd)/.build/try.log has" said
sed -i 's/^} }$/}/' crates/below/src/lib.rt

sed -i 's/^    43$/    42/' crates/below/src/lib.rt
out=$(./pooma run 1 2>said)
check 'mended: the output' [ "$out" = '42 8' ]
echo "first run: $passed passed, $failed failed"
[ "$failed" -eq 0 ]
