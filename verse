#!/usr/bin/env bash
# Runs the proved program with these words. Where the program is missing, or was built of other sources, the
# toolchain proves and builds it first; standard output has what the program writes, and nothing else.
set -u
here=$(dirname "$(readlink -f "${BASH_SOURCE[0]}")")
folder=$here/crates/verse_cli
program=$folder/out/verse_cli
sums=$here/scripts/program_sums
log=$folder/out/build.log

say() { echo "verse: $*" >&2; }

usage() {
  cat >&2 <<'USAGE'
verse runs the proved program; where it is missing, or its sources changed, it is proved and built first.

  ./verse run FILE {FILE} [--steps N] [--until MS] [--in N,N,..] [--heap]     runs the files of a program
  ./verse exec FILE [the same options]                                        runs an image, a program as bytecode
  ./verse save FILE [--steps N] [--until MS] [--in N,N,..]                    runs an image, and saves the run at its horizon
  ./verse resume FILE [--until MS] [--heap]                                   goes on with a saved run
  ./verse check FILE {FILE}                                                   tells the first refusal, or = ok
  ./verse build FILE {FILE}                                                   writes the image of the program
  ./verse note FILE {FILE}                                                    writes the notes of the program's image
  ./verse list FILE                                                           writes the listing of an image
  ./verse assemble FILE                                                       writes the image of a listing
  ./verse verify FILE FILE                                                    tests an image by the notes in the second file
  ./verse load N                                                              runs a made program of N functions

Where standard error is a terminal, or with VERSE_EXPLAIN=1, a refusal is explained there; VERSE_EXPLAIN=0 explains
none. ./try takes the same words, and proves nothing. docs/COMMANDS.md says more, and what the program writes.
USAGE
}

case ${1-} in
  '') [ "$#" -gt 0 ] || { usage; exit 2; } ;;
  --help | -h | help) usage; exit 0 ;;
esac

# Shows which crate is being proved and for how long, while the process runs.
progress() {
  local elapsed
  while kill -0 "$1" 2> /dev/null; do
    elapsed=$((SECONDS - begun))
    printf '\r\033[Kverse: proving %s, crate %d of %d, %d:%02d' \
      "$crate" "$number" "${#crates[@]}" $((elapsed / 60)) $((elapsed % 60)) >&2
    sleep 1
  done
  printf '\r\033[K' >&2
}

# Has the toolchain prove and build one crate. From the lowest up, none has to look at more than its own sources. The
# stored run of verse_cli ends with status 0, and no failure of the toolchain does.
build() {
  local words=(lib)
  [ "$crate" != verse_cli ] || words=(run -- run data/hi.verse)
  (cd "$here/crates/$crate" && exec rt "${words[@]}") >> "$log" 2>&1 < /dev/null &
  builder=$!
  trap 'kill "$builder" 2> /dev/null; wait "$builder"; exit 130' INT TERM HUP
  [ ! -t 2 ] || progress "$builder"
  wait "$builder"
  local status=$?
  trap - INT TERM HUP
  return "$status"
}

fail() {
  say "the build failed: $1; the log is $log"
  { grep -E 'error|NOT PROVED|not proved|no proof|did not build|^rt: ' "$log" || cat "$log"; } |
    grep -v 'rt: nothing has changed' | tail -n 8 >&2
  exit 1
}

build_all() {
  number=0
  : > "$log"
  for crate in "${crates[@]}"; do
    number=$((number + 1))
    build || fail "$crate, crate $number of ${#crates[@]}"
  done
}

if ! "$sums" same; then
  command -v rt > /dev/null || { say 'the Rattle toolchain is missing: rt is not on the path'; exit 1; }
  mapfile -t crates < <("$sums" crates)
  begun=$SECONDS
  mkdir -p "$folder/out"
  say "building: of the ${#crates[@]} crates of the program those are proved that no build has proved as they stand"
  for attempt in 1 2 3; do
    before=$("$sums")
    build_all
    ! "$sums" keep "$before" || break
    [ "$attempt" -lt 3 ] || fail 'the sources changed while they were built, or no program was left'
  done
fi
explains() { [ "${VERSE_EXPLAIN-}" = 1 ] || { [ -z "${VERSE_EXPLAIN+set}" ] && [ -t 2 ]; }; }

case $1 in
  run | check | build | note)
    if explains; then
      "$program" "$@" | "$here/scripts/explain" "$@"
      exit "${PIPESTATUS[0]}"
    fi ;;
esac
exec "$program" "$@"
