"""Tries the built program on the examples and on the files of the documents.

Usage, at the top of the repository: python3 tools/try_program.py PROGRAM. It prints what is wrong, and
nothing where all is well.

Each example and the system in docs/LANGUAGE.md is accepted, and its canonical text is its own canonical
text; so is the text of the upgraded system. Each file in docs/REFUSALS.md is refused by the line below
it, a scenario for the system of examples/pipeline.kom. Each example has the trace beside it, and each run
in docs/TOUR.md, a system, a scenario and a trace, has that trace. The scenario in docs/SCENARIO.md is
accepted for examples/pipeline.kom, and the trace in docs/TRACE.md is that of examples/first.kom. Each
system in tools/traces has the trace there, which was written by hand, and the status that it ends with. The
generated texts are accepted, and their runs end as they should.
"""

import pathlib
import re
import subprocess
import sys
import tempfile

TOP = pathlib.Path(__file__).resolve().parent.parent
STATUS = {"quiet": 0, "fault": 3, "budget": 4}
BLOCK = re.compile(r"^```\n(.*?)^```$", re.MULTILINE | re.DOTALL)


class Tries:
    def __init__(self, program, folder):
        self.program, self.folder, self.wrong = program, pathlib.Path(folder), 0

    def run(self, *words):
        ended = subprocess.run([self.program, *map(str, words)], capture_output=True, check=False)
        return ended.returncode, ended.stdout.decode()

    def want(self, name, got, wanted):
        if got != wanted:
            self.wrong += 1
            print(f"{name}: {got!r} and not {wanted!r}")

    def text_of(self, command, text):
        file = self.folder / "system.kom"
        file.write_text(text)
        return self.run(command, file)

    def is_accepted(self, name, text):
        for command in ("check", "upgrade"):
            status, printed = self.text_of(command, text)
            self.want(f"{command} {name}", status, 0)
            self.want(f"{command} {name}, again", self.text_of("check", printed), (0, printed))

    def has_trace(self, name, system, scenario, trace):
        files = self.folder / "system.kom", self.folder / "scenario.scn"
        for file, text in zip(files, (system, scenario)):
            file.write_text(text)
        self.want(f"sim {name}", self.run("sim", *files), (0, trace))

    def is_refused(self, name, text, line):
        if line.startswith("refused scenario"):
            file = self.folder / "scenario.scn"
            file.write_text(text)
            ended = self.run("sim", TOP / "examples/pipeline.kom", file)
        else:
            ended = self.text_of("check", text)
        self.want(name, ended, (1, line))


def main():
    program = str(pathlib.Path(sys.argv[1]).resolve())
    with tempfile.TemporaryDirectory() as folder:
        tries = Tries(program, folder)
        for file in sorted((TOP / "examples").glob("*.kom")):
            tries.is_accepted(file.name, file.read_text())
            trace = file.with_suffix(".trace")
            if trace.exists():
                ended = tries.run("sim", file, file.with_suffix(".scn"))
                tries.want(f"sim {file.name}", ended, (0, trace.read_text()))
        for file in sorted((TOP / "tools/traces").glob("*.kom")):
            trace = file.with_suffix(".txt").read_text()
            status = STATUS[trace.splitlines()[-2].split()[1]]
            tries.want(file.name, tries.run("sim", file, file.with_suffix(".scn")), (status, trace))
        for n in (1, 30):
            took = 2251 * n - 4
            end = f"end quiet\ntook {took} did {took} moved {100 * n} queued 0 out 0\n"
            tries.want(f"drill {n}", tries.run("drill", n), (0, end))
        tries.is_accepted("LANGUAGE.md", BLOCK.findall((TOP / "docs/LANGUAGE.md").read_text())[0])
        blocks = BLOCK.findall((TOP / "docs/TOUR.md").read_text())
        for system, scenario, trace in zip(blocks[::3], blocks[1::3], blocks[2::3]):
            tries.has_trace("TOUR.md", system, scenario, trace)
        scenario = tries.folder / "scenario.scn"
        scenario.write_text(BLOCK.findall((TOP / "docs/SCENARIO.md").read_text())[0])
        status, _ = tries.run("sim", TOP / "examples/pipeline.kom", scenario)
        tries.want("sim SCENARIO.md", status, 0)
        trace = BLOCK.findall((TOP / "docs/TRACE.md").read_text())[0]
        tries.want("TRACE.md", (TOP / "examples/first.trace").read_text(), trace)
        blocks = BLOCK.findall((TOP / "docs/REFUSALS.md").read_text())
        for text, line in zip(blocks[::2], blocks[1::2]):
            tries.is_refused(line.strip(), text, line)
    sys.exit(min(tries.wrong, 1))


main()
