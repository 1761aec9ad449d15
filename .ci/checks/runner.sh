#!/usr/bin/env bash
# Tests ./verse, ./try, ./verse-test and the scripts behind them in a small repository of three crates, with a stand-in
# for the toolchain that proves nothing and counts its builds.
set -u
root=$(cd "$(dirname "$0")/../.." && pwd) || exit 2
room=$(mktemp -d) || exit 2
trap 'rm -rf "$room"' EXIT
passed=0
failed=0
repo=$room/repo
folder=$repo/crates/verse_cli

mkdir -p "$room/bin" "$repo/scripts" "$repo/docs" "$room/some where"
cp "$root/verse" "$root/try" "$root/verse-test" "$repo/"
for script in program_sums checked_program explain try_each tries.py; do cp "$root/scripts/$script" "$repo/scripts/"; done
cp "$root/docs/REFUSALS.md" "$repo/docs/"
for crate in low other verse_cli; do
  mkdir -p "$repo/crates/$crate/src"
  echo "// $crate" > "$repo/crates/$crate/src/lib.rt"
done
mkdir -p "$folder/data"
echo 'hi' > "$folder/data/hi.verse"
printf '# The lowest first.\nlow: itoa\nother: low\nverse_cli: low\n' > "$repo/crates.txt"

# Builds a program that writes SAYS, or else its words one a line, between brackets, and ends with the status of STATUS.
cat > "$room/bin/rt" <<'STAND_IN'
#!/usr/bin/env bash
room=$(cd "$(dirname "$0")/.." && pwd)
case $1 in
  version) cat "$room/kit" ;;
  lib)
    echo "lib ${PWD##*/}" >> "$room/libs"
    [ ! -e "$room/slow" ] || sleep 3
    [ ! -e "$room/broken" ] || { echo 'fn low::add: not proved'; exit 1; } ;;
  run)
    echo run >> "$room/builds"
    mkdir -p out
    [ ! -e "$room/edited" ] || { rm "$room/edited"; echo '// edited meanwhile' >> ../low/src/lib.rt; }
    printf '#!/usr/bin/env bash\n[ -z "${SAYS-}" ] || { printf "%%s" "$SAYS"; exit "${STATUS:-0}"; }\necho "in $PWD"\nfor word in "$@"; do echo "[$word]"; done\nexit "${STATUS:-0}"\n' > out/verse_cli
    chmod +x out/verse_cli
    echo 'rt: running out/verse_cli'
    echo 'what the stored run writes' ;;
  try)
    shift
    echo "$*" >> "$room/tries"
    if [[ " $* " == *' --cases '* ]]; then
      for file in "${@: -1}"/*.args; do
        name=$(basename "$file" .args)
        echo "== $name"
        [ -z "${SAYS-}" ] || printf '%s' "$SAYS"
        sed 's/.*/[&]/' "$file"
        echo "case=$name run=ended status=${STATUS:-0} runners=1 proved=no" >&2
      done
      exit 0
    fi
    while [ "$1" != -- ]; do
      [ "$1" != --data ] || { echo "data ${2#*=}" >> "$room/given"; cat "${2#*=}" > /dev/null || exit 2; }
      shift
    done
    shift
    [ ! -e "$room/hangs" ] || { echo 'run=none proved=no' >&2; exit 6; }
    if [ -n "${SAYS-}" ]; then printf '%s' "$SAYS"; else for word in "$@"; do echo "[$word]"; done; fi
    echo "run=ended status=${STATUS:-0} runners=1 proved=no" >&2
    exit "${STATUS:-0}" ;;
  *) exit 2 ;;
esac
STAND_IN
chmod +x "$room/bin/rt"
echo 'a kit' > "$room/kit"
PATH=$room/bin:$PATH
builds() { if [ -f "$room/builds" ]; then wc -l < "$room/builds"; else echo 0; fi; }

# The test that runs now, what it wants and what it has.
same() {
  if [ "$2" = "$3" ]; then
    passed=$((passed + 1))
  else
    failed=$((failed + 1))
    printf 'runner check failed: %s\n  wanted: %s\n  got:    %s\n' "$1" "$2" "$3"
  fi
}

# Runs the program in a folder, and keeps output, complaints and status.
in_folder() {
  local at=$1
  shift
  wrote=$(cd "$at" && "$@" 2> "$room/said")
  status=$?
  said=$(cat "$room/said")
}
verse() { in_folder "$repo" ./verse "$@"; }

for word in --help -h help; do
  verse "$word"
  same "verse $word: how it is used, at once" '0  1 0' "$status $wrote $(grep -c './verse check FILE' <<< "$said") $(builds)"
  in_folder "$repo" ./try "$word"
  same "try $word: how it is used, at once" '0  1 no' "$status $wrote $(grep -c './try check FILE' <<< "$said") $([ -e "$room/tries" ] && echo yes || echo no)"
done
verse
same 'verse without words: the same' '2  1 0' "$status $wrote $(grep -c './verse check FILE' <<< "$said") $(builds)"
in_folder "$repo" ./try
same 'try without words: the same' '2  1 no' "$status $wrote $(grep -c './try check FILE' <<< "$said") $([ -e "$room/tries" ] && echo yes || echo no)"

verse run a.verse
same 'a program that is missing is built' 1 "$(builds)"
same 'and what it stands on, and nothing else' 'lib low' "$(cat "$room/libs")"
same 'output is the program'"'"'s alone' "in $repo"$'\n[run]\n[a.verse]' "$wrote"
verse run a.verse
same 'a program that is there is not built again' 1 "$(builds)"
same 'a run without a build says nothing' '' "$said"

touch "$repo/crates/other/src/lib.rt" "$repo/crates/low/src/lib.rt" "$repo/crates.txt"
verse run a.verse
same 'touched files decide nothing' 1 "$(builds)"
echo '// edited' >> "$repo/crates/other/src/lib.rt"
echo '# a remark' >> "$repo/crates.txt"
verse run a.verse
same 'a crate that the program does not stand on decides nothing' 1 "$(builds)"
same 'and the program runs' 0 "$status"

echo '// edited' >> "$repo/crates/low/src/lib.rt"
verse run a.verse
same 'an edited crate below is built' 2 "$(builds)"
touch -d '1 January 2001' "$folder/out/verse_cli"
verse run a.verse
same 'the age of the program decides nothing' 2 "$(builds)"
mkdir -p "$repo/crates/low/specs"
echo 'new' > "$repo/crates/low/specs/New.antt"
verse run a.verse
same 'a new file below is built' 3 "$(builds)"
sed -i 's/^verse_cli: low/verse_cli: low itoa/' "$repo/crates.txt"
verse run a.verse
same 'a changed line of crates.txt is built' 4 "$(builds)"
echo 'another kit' > "$room/kit"
verse run a.verse
same 'another toolchain builds' 5 "$(builds)"
echo '# changed' >> "$folder/out/verse_cli"
verse run a.verse
same 'a program that is not the built one is built again' 6 "$(builds)"
rm "$folder/out/verse_cli"
verse run a.verse
same 'a program that was removed is built again' 7 "$(builds)"

verse 'run' 'a file.verse' --steps '' '--in' $'1\n2' '*' '\n'
same 'words pass as they are' "in $repo"$'\n[run]\n[a file.verse]\n[--steps]\n[]\n[--in]\n[1\n2]\n[*]\n[\\n]' "$wrote"
verse ''
same 'an empty word is a word' "in $repo"$'\n[]' "$wrote"
in_folder "$room/some where" ../repo/verse run ../x.verse
same 'a relative path is that of the caller'"'"'s folder' "in $room/some where"$'\n[run]\n[../x.verse]' "$wrote"
ln -s "$repo/verse" "$room/bin/verse-link"
in_folder "$room" "$room/bin/verse-link" check x
same 'a link to the script serves' "in $room"$'\n[check]\n[x]' "$wrote"
STATUS=4 verse run a.verse
same 'the status is the program'"'"'s' 4 "$status"
same 'and nothing was built' 7 "$(builds)"

printf 'Main():void =\n\tif (X == 3) {}\n' > "$repo/e.verse"
refusal=$'2:9 E030 unexpected token\n'
VERSE_EXPLAIN=1 SAYS=$refusal STATUS=1 verse check e.verse
same 'a refusal is explained: the output is the program'"'"'s' '1 2:9 E030 unexpected token' "$status $wrote"
same 'and the source, the place and the cure are on standard error' $'  2 | \tif (X == 3) {}\n    | \t       ^\n  E030: equality is one `=`\n  more: docs/REFUSALS.md#e030-unexpected-token' "$said"
VERSE_EXPLAIN=1 SAYS=$'e.verse:2:1 E060 can fail outside a failure context\n' STATUS=1 verse check a.verse e.verse
same 'of several files the one that is named' 1 "$(grep -c 'put it into the condition' <<< "$said")"
printf 'Main():void =\n    if (1 > 2) # a remark\n\n        Print("a")\n' > "$repo/f.verse"
VERSE_EXPLAIN=1 SAYS=$'4:9 E020 bad indentation\n' STATUS=1 verse check f.verse
same 'a block that nothing opened' 1 "$(grep -c 'the line before opens no block' <<< "$said")"
VERSE_EXPLAIN=1 SAYS=$'0 hi\n= error K1 2:5 at 0 steps 1\n' STATUS=4 verse run e.verse
same 'a runtime error is explained' '4 1' "$status $(grep -c '^  K1: ' <<< "$said")"
VERSE_EXPLAIN=1 SAYS=$'no line end' verse run e.verse
same 'what ends without a line end passes' 'no line end ' "$wrote $said"
VERSE_EXPLAIN=1 SAYS=$refusal STATUS=1 verse check gone.verse
same 'a file that is gone explains nothing' '1  2:9 E030 unexpected token' "$status $said $wrote"
SAYS=$refusal STATUS=1 verse check e.verse
same 'without a terminal nothing is explained' '1 ' "$status $said"
VERSE_EXPLAIN=1 SAYS=$refusal STATUS=1 verse exec e.verse
same 'nor for exec' '1 ' "$status $said"
explained=$(cd "$repo" && SAYS=$refusal STATUS=1 python3 -c '
import os, pty
pty.spawn(["./verse", "check", "e.verse"], lambda fd: os.read(fd, 1024))' 2>&1 < /dev/null)
same 'a terminal is told' 1 "$(grep -c 'equality is one' <<< "$explained")"

touch "$room/broken"
cp "$repo/crates/low/src/lib.rt" "$room/was"
echo '// wrong' >> "$repo/crates/low/src/lib.rt"
verse run a.verse
same 'a failed build has status 1' 1 "$status"
same 'and runs nothing' '' "$wrote"
same 'and says which crate' 1 "$(grep -c 'the build failed: low, crate 1 of 2' <<< "$said")"
same 'and says why' 1 "$(grep -c 'fn low::add: not proved' <<< "$said")"
same 'and builds nothing above it' 7 "$(builds)"
verse run a.verse
same 'it fails again while nothing changes' '1 7' "$status $(builds)"
cp "$room/was" "$repo/crates/low/src/lib.rt"
verse run a.verse
same 'with the old text the old program serves' '0 7' "$status $(builds)"
rm "$room/broken"

echo '// once more' >> "$repo/crates/low/src/lib.rt"
touch "$room/edited"
verse run a.verse
same 'what is edited during a build is built again' '0 9' "$status $(builds)"
rm -rf "$repo/crates/verse_cli/out"
(cd "$folder" && rt run > "$room/log" 2>&1)
sums=$("$repo/scripts/program_sums")
"$repo/scripts/program_sums" keep "$sums"
verse run a.verse
same 'a program that the gate built is taken' '0 10' "$status $(builds)"
"$repo/scripts/program_sums" keep 'other sums'
same 'sums of other sources are not kept' 1 "$?"
same 'the crates that count' $'low\nverse_cli' "$("$repo/scripts/program_sums" crates)"

export CI=true
same 'the checks take the program that is noted' "$folder/out/verse_cli 10" "$("$repo/scripts/checked_program") $(builds)"
rm "$folder/out/verse_cli.sums"
same 'after the gate they take the one that it left' "$folder/out/verse_cli 10" "$("$repo/scripts/checked_program") $(builds)"
rm "$folder/out/verse_cli"
in_folder "$repo" scripts/checked_program
same 'where the gate left none they fail' "1  10" "$status $wrote $(builds)"
same 'and say so' 1 "$(grep -c 'verse_cli is not proved' <<< "$said")"
unset CI
STATUS=2 in_folder "$repo" scripts/checked_program
same 'outside the gate it is built' "0 $folder/out/verse_cli 11" "$status $wrote $(builds)"

rm "$folder/out/verse_cli"
touch "$room/slow"
progress=$(cd "$repo" && python3 -c '
import os, pty, sys
pty.spawn(["./verse", "run", "a.verse"], lambda fd: os.read(fd, 1024))' 2>&1 < /dev/null)
same 'a terminal shows the progress' yes "$(grep -q 'proving low, crate 1 of 2, 0:0' <<< "$progress" && echo yes)"
rm "$room/slow"

try() { rm -f "$room/given"; in_folder "$repo" ./try "$@"; }
echo 'a' > "$repo/a.verse"
echo 'b' > "$repo/a = b.verse"
try run a.verse --steps 5
same 'try: words pass' $'[run]\n[a.verse]\n[--steps]\n[5]' "$wrote"
same 'try: the named file is given' "data $repo/a.verse" "$(cat "$room/given")"
same 'try: it says that nothing was proved' 1 "$(grep -c 'not proved' <<< "$said")"
STATUS=6 try run nothing.verse
same 'try: the status is the program'"'"'s' '6 [run] [nothing.verse]' "$status $(echo $wrote)"
try run 'a = b.verse'
same 'try: a name with blanks and marks' $'[run]\n[a = b.verse]' "$wrote"
same 'try: and its file' "data $repo/a = b.verse" "$(cat "$room/given")"
rm -f "$room/given"
in_folder "$room/some where" ../repo/try run ../repo/a.verse "$repo/a.verse" --in -1
same 'try: paths that leave the folder' $'[run]\n[../repo/a.verse]\n['"$repo"$'/a.verse]\n[--in]\n[-1]' "$wrote"
same 'try: and their files' "data $repo/a.verse"$'\n'"data $repo/a.verse" "$(cat "$room/given")"
try run data/hi.verse
same 'try: a file of verse_cli is none of the caller'"'"'s' 'none' "$(cat "$room/given" 2> /dev/null || echo none)"
same 'try: and keeps its name' $'[run]\n[data/hi.verse]' "$wrote"
touch "$room/hangs"
try run a.verse
same 'try: a run without an answer has status 9' '9 ' "$status $wrote"

rm "$room/hangs"
VERSE_EXPLAIN=1 SAYS=$refusal STATUS=1 in_folder "$room/some where" ../repo/try check ../repo/e.verse
same 'try: a refusal is explained' '1 2:9 E030 unexpected token 1' "$status $wrote $(grep -c 'equality is one' <<< "$said")"
SAYS=$refusal STATUS=1 try check e.verse
same 'try: not without a terminal' '1 0' "$status $(grep -c 'equality is one' <<< "$said")"

echo '' > "$room/tries"
in_folder "$repo" ./try --each check a.verse 'a = b.verse' gone.verse --steps 5
same 'try --each: each file, by its name' $'== a.verse\n[check]\n[a.verse]\n[--steps]\n[5]\n== a = b.verse\n[check]\n[a = b.verse]\n[--steps]\n[5]\n== gone.verse\n[check]\n[gone.verse]\n[--steps]\n[5]' "$wrote"
same 'try --each: compiled once' '0 1' "$status $(grep -c -e --cases "$room/tries")"
same 'try --each: the files that are there are given' 2 "$(grep -o -e '--data [^ ]*' "$room/tries" | wc -l)"
STATUS=1 in_folder "$repo" ./try --each check a.verse
same 'try --each: the status' 1 "$status"
in_folder "$repo" ./try --each check
same 'try --each without a file: how it is used' '2 ' "$status $wrote"

# A program for ./verse-test: it writes its words, and the text of its first file.
cat > "$room/writes" <<'WRITES'
#!/usr/bin/env bash
echo "$*"
cat "$2"
[ "$2" != two.verse ] || exit 3
WRITES
chmod +x "$room/writes"
tests=$repo/tests
mkdir -p "$tests/parts"
echo one > "$tests/one.verse"
echo two > "$tests/two.verse"
echo part > "$tests/part.verse"
printf 'part.verse\n--in\n1\n' > "$tests/one.args"
run_tests() { in_folder "$repo" ./verse-test --program "$room/writes" tests "$@"; }
run_tests
same 'verse-test: what has no output fails' '1 0 passed, 2 failed' "$status $(tail -n 1 <<< "$wrote")"
run_tests --accept
same 'verse-test --accept writes it down' '0 2 passed, 0 failed' "$status $(tail -n 1 <<< "$wrote")"
same 'verse-test: outputs and statuses' $'run one.verse part.verse --in 1\none\nrun two.verse\ntwo\n3' "$(cat "$tests/one.out" "$tests/two.out" "$tests/two.status")"
same 'verse-test: no status where it is 0' no "$([ -e "$tests/one.status" ] && echo yes || echo no)"
run_tests
same 'verse-test: all as it was' '0 2 passed, 0 failed' "$status $wrote"
echo changed > "$tests/two.verse"
run_tests
same 'verse-test: a difference' '1 1 passed, 1 failed' "$status $(tail -n 1 <<< "$wrote")"
same 'verse-test: as a diff' $'-two\n+changed' "$(grep -E '^[-+][a-z]' <<< "$wrote")"
run_tests one
same 'verse-test: one program' '0 1 passed, 0 failed' "$status $wrote"
rm "$tests/two.status"
echo two > "$tests/two.verse"
run_tests two
same 'verse-test: a status' '1 status 3, not 0' "$status $(head -n 1 <<< "$wrote")"
echo 3 > "$tests/two.status"
echo two > "$tests/one.image"
run_tests one
same 'verse-test: an image that writes something else' '1 1 passed, 1 failed' "$status $(tail -n 1 <<< "$wrote")"
rm "$tests/one.image"
echo stray > "$tests/three.out"
run_tests
same 'verse-test: a stray file' '1 three.out belongs to no program' "$status $(head -n 1 <<< "$wrote")"
rm "$tests/three.out"
export VERSE=$room/writes
in_folder "$tests" "$root/editors/watch" --once part.verse
same 'editors/watch --once: the program of a part' "0 checking $tests/one.verse|check $tests/one.verse $tests/part.verse|one|checked" "$status $(paste -s -d '|' <<< "$wrote")"
in_folder "$tests" "$root/editors/watch" --run one.verse
same 'editors/watch --run: with its options' "0 run $tests/one.verse $tests/part.verse --in 1" "$status $(sed -n 2p <<< "$wrote")"
"$root/editors/watch" "$tests" > "$room/watched" &
watcher=$!
for ((tries = 0; tries < 60; tries++)); do
  echo "two $tries" > "$tests/two.verse"
  sleep 0.2
  ! grep -q "checking $tests/two.verse" "$room/watched" || break
done
kill "$watcher"
wait "$watcher" 2> /dev/null
same 'editors/watch FOLDER: what is saved is checked' "checking $tests/two.verse" "$(sort -u "$room/watched" | grep checking)"
unset VERSE
rm "$tests/one.args" "$tests/part.verse"
printf '[run]\n[one.verse]\n' > "$tests/one.out"
in_folder "$repo" ./verse-test --try tests one
same 'verse-test --try: by one build' '0 1 passed, 0 failed' "$status $wrote"

echo "$passed passed, $failed failed"
[ "$failed" -eq 0 ]
