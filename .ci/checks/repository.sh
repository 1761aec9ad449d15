#!/usr/bin/env bash
# What the gate does not look at: the repository's own rules, cheap to test.
set -u
cd "$(dirname "$0")/../.." || exit 2
failed=0
passed=0

check() {
  if "$@" > /tmp/repository-check.$$ 2>&1; then
    passed=$((passed + 1))
  else
    failed=$((failed + 1))
    echo "repository check failed: $*"
    head -n 8 /tmp/repository-check.$$
  fi
  rm -f /tmp/repository-check.$$
}

handles_are_none() { [ "$(cat HANDLES)" = 'Handles allowed: none.' ]; }

crates() { grep -v '^#' crates.txt | cut -d: -f1 | cut -d' ' -f1; }

# A crate of lemmas alone has no body that could be wrong.
has_functions() { grep -qE '^ *(pub(\(crate\))? )?fn ' crates/"$1"/src/*.rt; }

each_crate_has_wrong_bodies() {
  for name in $(crates); do
    has_functions "$name" || continue
    [ -f "crates/$name/src/main.rt" ] || compgen -G "crates/$name/wrong-bodies/*.edit" > /dev/null || { echo "$name"; return 1; }
  done
}

each_crate_is_described() {
  for name in $(crates); do
    grep -q "\*\*$name\*\*" docs/ARCHITECTURE.md || { echo "$name is not in docs/ARCHITECTURE.md"; return 1; }
    grep -qE "(^|[^_a-z])$name([^_a-z]|$)" README.md docs/PROVED.md docs/FIGURES.md || { echo "$name is not in docs/FIGURES.md"; return 1; }
  done
}

figures_are_those_of_the_crates() { scripts/figures check; }

files_are_short() {
  local long
  long=$(git ls-files 'crates/*/src/*.rt' | xargs wc -l | awk '$2 != "total" && $1 > 800 { print $2 ": " $1 }')
  [ -z "$long" ] || { echo "$long"; return 1; }
}

# Lines of code and definitions over 100 columns, and lines of proofs over 140, up to which `rt fmt` lays them out. Their
# numbers stand in .ci/long_lines and only fall.
longer_than() { LC_ALL=C.UTF-8 grep -cE ".{$(($1 + 1))}"; }

no_more_lines_are_long() {
  local now noted
  now="$(git ls-files 'crates/*/src/*.rt' 'crates/*/specs/*.antt' | xargs cat | longer_than 100)"
  now+=" $(git ls-files 'crates/*/proofs/*.antt' | xargs cat | longer_than 140)"
  noted=$(cat .ci/long_lines)
  [ "$now" = "$noted" ] || { echo "long lines: $now, and $noted in .ci/long_lines"; return 1; }
}

no_hole_is_left() { ! git grep -nE '(^|[^A-Za-z"])\?($|[^A-Za-z.])' -- 'crates/*/proofs/*.antt' 'crates/*/proofs/**/*.antt'; }

nothing_made_is_kept() { ! git ls-files | grep -E '(^|/)out/|BUILD\.bazel$'; }

# The examples that the language's chapters show are those in examples/.
examples_are_named() {
  for file in examples/*.verse; do
    grep -rq "$(basename "$file")" README.md docs examples/README.md || { echo "$file is named nowhere"; return 1; }
  done
}

# Crates have type names in common; in a file a name is one type's.
type_names_are_one() { python3 .ci/checks/type_names.py; }

check handles_are_none
check each_crate_has_wrong_bodies
check each_crate_is_described
check figures_are_those_of_the_crates
check files_are_short
check no_more_lines_are_long
check no_hole_is_left
check nothing_made_is_kept
check examples_are_named
check type_names_are_one
echo "$passed passed, $failed failed"
[ "$failed" -eq 0 ]
