#!/usr/bin/env bash
# Runs the programs of examples/ through the proved program, as ./verse-test does for any folder: what they write and
# with which status, and their images too.
set -u
cd "$(dirname "$0")/../.." || exit 2
program=$(scripts/checked_program) || { echo 'examples check failed: no program to run them'; echo '0 passed, 1 failed'; exit 1; }
./verse-test --program "$program" examples
