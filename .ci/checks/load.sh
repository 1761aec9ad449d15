#!/usr/bin/env bash
# The generated load through the proved program: its last lines, and its time, which is printed and not asserted.
set -u
cd "$(dirname "$0")/../.." || exit 2
program=$(scripts/checked_program) || { echo 'load check failed: no program to run it'; echo '0 passed, 1 failed'; exit 1; }
failed=0
for rows in '3 9' '1000 3000'; do
  read -r functions lines <<< "$rows"
  TIMEFORMAT="load $functions takes %U seconds of processor time"
  time seen=$("$program" load "$functions" | tail -n 1)
  [ "$seen" = "= lines $lines" ] || { echo "load check failed: load $functions ends with '$seen'"; failed=$((failed + 1)); }
done
echo "$((2 - failed)) passed, $failed failed"
[ "$failed" -eq 0 ]
