#!/usr/bin/env python3
"""Runs the real program in scratch folders.

usage: tests/run.py [PROGRAM] [NAME..]

PROGRAM is crates/mod_deployer/out/mod_deployer where none is named. Where cases or modules are
named, only those run. The last line is `tests: N passed, M failed`; the status is 0 where none
failed.
"""

import os
import sys
import tempfile

HERE = os.path.dirname(os.path.abspath(__file__))
sys.path.insert(0, HERE)
sys.dont_write_bytecode = True

import batching
import counting
import deploying
import documents
import editing
import killing
import looking
import manual
import packaging
import purging
import real_disk
import reporting
import sampling
import scans
import settling
from harness import is_known, run_cases

MODULES = (
    documents,
    manual,
    packaging,
    looking,
    real_disk,
    scans,
    deploying,
    editing,
    settling,
    purging,
    killing,
    batching,
    sampling,
    reporting,
    counting,
)

PROGRAM = os.path.join(HERE, "..", "crates", "mod_deployer", "out", "mod_deployer")


def cases_of(module):
    return [
        case
        for name, case in vars(module).items()
        if callable(case) and not name.startswith("_") and case.__module__ == module.__name__
    ]


def chosen(cases, program):
    """The cases whose commands the program has; the others are skipped, and said so."""
    words = {word for case in cases for word in getattr(case, "needs", ())}
    missing = {word for word in words if not is_known(program, word)}
    kept = [case for case in cases if not missing & set(getattr(case, "needs", ()))]
    if missing:
        print(f"skipped: {len(cases) - len(kept)} cases, for want of {', '.join(sorted(missing))}")
    return kept


def main(words):
    program = words[0] if words else PROGRAM
    if not os.access(program, os.X_OK):
        print(f"no program at {program}", file=sys.stderr)
        print("tests: 0 passed, 1 failed")
        return 1
    wanted = set(words[1:])
    cases = [
        case
        for module in MODULES
        for case in cases_of(module)
        if not wanted or wanted & {case.__name__, module.__name__}
    ]
    with tempfile.TemporaryDirectory(prefix="mod_deployer_") as scratch:
        passed, failed = run_cases(chosen(cases, program), program, scratch)
    print(f"tests: {passed} passed, {failed} failed")
    return 1 if failed or not passed else 0


if __name__ == "__main__":
    sys.exit(main(sys.argv[1:]))
