#!/usr/bin/env python3
"""Runs scripts on threads and wants `check` to find each report legal. It stands outside the gate.

tests/runs_are_legal.py PROGRAM FILE..

PROGRAM is the built viommu. Each line of a FILE is a JSON object with the script in "stdin" and the status that `one`
answers to it in "status": those with status 0 are run with 1, 2, 4 and 16 workers.
"""
import json
import subprocess
import sys

WORKERS = (1, 2, 4, 16)


def call(program, words, data):
    """The status and the output of one call of the program."""
    done = subprocess.run([program, *words], input=data, stdout=subprocess.PIPE, timeout=120)
    return done.returncode, done.stdout


def scripts(paths):
    """The accepted scripts of these files."""
    for path in paths:
        with open(path, encoding="utf-8") as lines:
            for line in lines:
                case = json.loads(line)
                if case.get("status", 0) == 0:
                    yield case["stdin"].encode("latin-1")


def main():
    program, *paths = sys.argv[1:]
    passed = failed = 0
    for script in scripts(paths):
        for workers in WORKERS:
            status, report = call(program, ["run", str(workers)], script)
            end = b"" if script.endswith(b"\n") or not script else b"\n"
            verdict = call(program, ["check"], script + end + b"report\n" + report)
            if status == 0 and verdict == (0, b"legal\n"):
                passed += 1
            else:
                failed += 1
                print(f"run {workers}: status {status}, verdict {verdict}\n{script.decode('latin-1')}")
    print(f"{passed} passed, {failed} failed")
    return 1 if failed else 0


if __name__ == "__main__":
    sys.exit(main())
