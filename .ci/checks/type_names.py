#!/usr/bin/env python3
"""Status 0 exactly where in each file of code a type name stands for one type.

Crates have some thirty type names in common, as `Call`, of a store and of a clock. A file that imports one of them
imports no other of the same name and declares none, so the name says what it is where it stands."""
import collections
import glob
import re
import sys

IMPORT = re.compile(r"^use ([\w:]+?)::(?:\{([^}]*)\}|(\w+)(?: as \w+)?);", re.MULTILINE)
DECLARED = re.compile(r"^\s*(?:pub(?:\(crate\))? )?(?:struct|enum|trait) (\w+)", re.MULTILINE)


def imported(text):
    """Each name that is imported, with the module from which it comes."""
    for module, several, one in IMPORT.findall(text):
        for name in several.split(",") if several else [one]:
            name = name.split(" as ")[0].strip()
            if name[:1].isupper():
                yield name, module


def main():
    failed = 0
    for path in sorted(glob.glob("crates/*/src/**/*.rt", recursive=True)):
        with open(path, encoding="utf-8") as file:
            text = file.read()
        modules = collections.defaultdict(set)
        for name, module in imported(text):
            modules[name].add(module)
        for name in DECLARED.findall(text):
            modules[name].add("this file")
        for name, places in modules.items():
            if len(places) > 1:
                failed += 1
                print(f"{path}: {name} is of {' and of '.join(sorted(places))}")
    return failed


sys.exit(1 if main() else 0)
