#!/usr/bin/env bash
# Compares the documents with what they speak of: parts of examples, short examples and commands with what they
# write, wrong examples with their refusals and cures, links and headings, the tables of built forms and of refusals,
# pictures of crates, times, words, marks and scopes of the editor's grammar.
set -u
cd "$(dirname "$0")/../.." || exit 2
program=$(scripts/checked_program) || { echo 'docs check failed: no program to run the commands'; echo '0 passed, 1 failed'; exit 1; }
python3 .ci/checks/docs.py "$program"
