"""What the tools that build a program of their own and time it share."""

import pathlib
import subprocess
import sys
import time


def seconds(program):
    """How long one run of a program takes."""
    start = time.perf_counter()
    subprocess.run([program], check=True)
    return time.perf_counter() - start


def top_and_folder():
    """The top of the repository, and the folder that was given."""
    return pathlib.Path(__file__).resolve().parent.parent, pathlib.Path(sys.argv[1])
