#!/usr/bin/env python3
"""Runs three systems many times with 1, 2, 3, 8 and 64 workers, and compares how each run ended with
what holds in every schedule: how many items were taken and jobs ended, that nothing is queued, and how
many events went out. At the top of the repository, with the built program:

    python3 tools/soak.py PROGRAM [RUNS]

RUNS is how often each system is run with each count of workers, 1000 unless it is given.
"""

import pathlib
import subprocess
import sys
import tempfile

TOP = pathlib.Path(__file__).resolve().parent
WORKERS = [1, 2, 3, 8, 64]


def summary(program, words):
    """The status of a call, and of its last line the pairs of a word and a number."""
    done = subprocess.run([program, *words], capture_output=True, check=False)
    words = done.stdout.decode().rstrip("\n").split("\n")[-1].split()
    return done.returncode, dict(zip(words[::2], words[1::2]))


def made(program, folder, n):
    """The files of the generated system and scenario of a number."""
    files = []
    for kind in ["system", "scenario"]:
        file = folder / f"{n}.{kind}"
        text = subprocess.run([program, "make", str(n), kind], capture_output=True, check=True)
        file.write_bytes(text.stdout)
        files.append(file)
    return files


def pair_of(name):
    return [TOP / f"{name}.kom", TOP / f"{name}.scn"]


def main():
    program = str(pathlib.Path(sys.argv[1]).resolve())
    runs = int(sys.argv[2]) if len(sys.argv) > 2 else 1000
    wrong = 0
    with tempfile.TemporaryDirectory() as folder:
        five = made(program, pathlib.Path(folder), 5)
        cases = [
            ("five nodes", pair_of("soak/five_nodes"), {"took": "1516", "did": "1516", "queued": "0", "out": "500"}),
            ("make 5", five, summary(program, ["sim", *five])[1]),
            ("two nodes", pair_of("traces/network"), {"took": "11", "did": "11", "queued": "0", "out": "2"}),
        ]
        for name, files, wanted in cases:
            for workers in WORKERS:
                bad = 0
                for _ in range(runs):
                    status, found = summary(program, ["run", *files, str(workers)])
                    bad += status != 0 or any(found.get(word) != number for word, number in wanted.items())
                wrong += bad
                print(f"{name}, {workers} workers: {runs - bad} of {runs} runs ended as they should", flush=True)
    sys.exit(1 if wrong else 0)


if __name__ == "__main__":
    main()
