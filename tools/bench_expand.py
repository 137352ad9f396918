"""How long the expansion of a scenario of 100,000 events takes.

It writes a repository of its own into the folder that is given, with the crates that read and expand
scenarios and a program that reads one scenario and expands it twenty times, builds the program there
(which proves it), and prints the seconds per expansion of the best of five runs. Run it at the top of
the repository:

    python3 tools/bench_expand.py FOLDER
"""

import shutil
import subprocess

from timing import seconds, top_and_folder

TIMES = 20

MAIN = """//! A scenario of 100,000 events, expanded often.
#![tactic(auto)]

use kom_expand::expand;
use kom_loads::ring_system;
use kom_scenario::{Scenario, ScenarioRead, read_scenario};
use std::alloc::Global;
use std::process::ExitCode;

const TEXT: &[u8] = b"scenario 1; seed 7; \\
process a at 0 { count 25000; gap 1 9; raise Tok(draw 1 1000) at feed; } \\
process b after start of a by 5 { count 25000; gap 0 10; raise Tok(index) at feed; } \\
process c after start of b by 5 { count 25000; gap 2 8; raise Swap() at cmd; } \\
process d after start of a by 1 { count 25000; gap 5 5; raise Tok(draw 0 1000000000) at feed; }";

/// How many events each of the expansions has; `None` where they differ, or memory ran out.
fn expanded(alloc: Global, scenario: &Scenario) -> Option<usize> {
    for _ in 0..20 {
        let plan = expand(alloc, scenario).ok()?;
        if plan.raises.len() != 100_000 {
            return None;
        }
    }
    Some(100_000)
}

fn events(alloc: Global) -> Option<usize> {
    let system = ring_system(alloc).ok()?;
    if TEXT.len() > 1048576 {
        return None;
    }
    match read_scenario(alloc, TEXT, &system) {
        ScenarioRead::Scenario(scenario) => expanded(alloc, &scenario),
        _ => None,
    }
}

fn main(rt: HostRuntime) -> ExitCode {
    match events(rt.alloc()) {
        Some(_) => ExitCode::from(0),
        None => ExitCode::from(1),
    }
}
"""


def needed(lines):
    """The lines of the crates that the program stands on."""
    below = {line.split(":")[0]: line.split(":")[1].split() for line in lines}
    found, todo = set(), ["kom_loads"]
    while todo:
        crate = todo.pop()
        if crate in below and crate not in found:
            found.add(crate)
            todo += below[crate]
    return [line for line in lines if line.split(":")[0] in found]


def write_repository(top, out):
    lines = needed((top / "crates.txt").read_text().splitlines())
    for crate in (line.split(":")[0] for line in lines):
        for part in ["src", "specs", "proofs"]:
            shutil.copytree(top / "crates" / crate / part, out / "crates" / crate / part, dirs_exist_ok=True)
    names = " ".join(line.split(":")[0] for line in lines)
    (out / "crates.txt").write_text("\n".join(lines + [f"bench: {names} rand_core rand_pcg indexmap sqlite_items"]) + "\n")
    shutil.copy(top / "HANDLES", out / "HANDLES")
    bench = out / "crates" / "bench"
    for folder in ["src", "specs", "proofs"]:
        (bench / folder).mkdir(parents=True, exist_ok=True)
    (bench / "src" / "main.rt").write_text(MAIN)
    (bench / "specs" / "Lib.antt").write_text("")
    (bench / "proofs" / "Lib.antt").write_text("")


def main():
    top, out = top_and_folder()
    write_repository(top, out)
    subprocess.run(["rt", "ci"], cwd=out, check=True)
    program = out / "crates" / "bench" / "out" / "bench"
    best = min(seconds(program) for _ in range(5))
    print(f"{best / TIMES:.3f} s per expansion of 100,000 events")


main()
