"""How long a turn of a loop takes in a handling.

It writes a repository of its own into the folder that is given, with the crates that run statements
and a program that runs `while x < 10000 { x = x + 1; }` a thousand times, builds the program there
(which proves it), and prints the nanoseconds per turn of the best of five runs. Run it at the top of
the repository:

    python3 tools/bench_handlings.py FOLDER
"""

import shutil
import subprocess

from timing import seconds, top_and_folder

CRATES = ["kom_base", "kom_events", "kom_lang", "kom_system", "kom_values", "kom_steps"]
TURNS = 1000 * 10000

MAIN = """ghost use Rattle.kom_steps.specs.Faults.{FailsFit};

mod sample;

use kom_base::Values;
use kom_lang::{Binary, Block, Body, Expr, Slots, Stmt, Subs, Wires};
use kom_steps::{Handling, Setting, fails_fit, run_statements};
use kom_values::{Scope, Stop};
use sample::smallest;
use sqlite_items::{Boxed, Items};
use std::alloc::{AllocError, Global};
use std::process::ExitCode;

fn pair(alloc: Global, op: Binary, left: Expr, right: Expr) -> Result<Expr, AllocError> {
    Ok(Expr::Pair {
        op,
        left: Boxed::new(alloc, left)?,
        right: Boxed::new(alloc, right)?,
    })
}

fn counting(alloc: Global) -> Result<Block, AllocError> {
    let mut inner = Block::new(alloc);
    inner.push(Stmt::SetVar {
        index: 0,
        value: pair(alloc, Binary::Add, Expr::Var(0), Expr::Number(1))?,
    })?;
    let mut block = Block::new(alloc);
    block.push(Stmt::While {
        test: pair(alloc, Binary::Lt, Expr::Var(0), Expr::Number(10_000))?,
        block: inner,
    })?;
    Ok(block)
}

fn handling(alloc: Global) -> Result<Handling, AllocError> {
    let mut vars = Values::new(alloc);
    vars.push(0)?;
    let body = Body {
        kind: 0,
        vars,
        subs: Subs::new(alloc),
        slots: Slots::new(alloc),
        wires: Wires::new(alloc),
        depth: 1,
        active: true,
        initialised: true,
    };
    Ok(Handling {
        body,
        scope: Scope::new(alloc),
        effects: Items::new(alloc),
        turns: 0,
    })
}

fn run_once(setting: &Setting<'_>, block: &[Stmt], handling: &mut Handling) -> Result<(), Stop>
    requires { FailsFit block.now }
{
    handling.turns = 0;
    if handling.body.vars.len() > 0 {
        handling.body.vars.set(0, 0);
    }
    run_statements(setting, block, handling)
}

fn run_often(setting: &Setting<'_>, block: &[Stmt]) -> Result<u32, Stop>
    requires { FailsFit block.now }
{
    let mut handling = handling(setting.alloc)?;
    for _ in 0..1000 {
        run_once(setting, block, &mut handling)?;
    }
    Ok(handling.turns)
}

fn turns(alloc: Global) -> Result<u32, Stop> {
    let system = smallest(alloc)?;
    let none = Values::new(alloc);
    let setting = Setting {
        alloc,
        system: &system,
        it: &none,
        state: &none,
    };
    let block = counting(alloc)?;
    let statements = block.as_slice();
    if fails_fit(statements) {
        run_often(&setting, statements)
    } else {
        Ok(0)
    }
}

fn main(rt: HostRuntime) -> ExitCode {
    match turns(rt.alloc()) {
        Ok(10_000) => ExitCode::from(0),
        _ => ExitCode::from(1),
    }
}
"""


def crates_txt(top):
    lines = (top / "crates.txt").read_text().splitlines()
    kept = [line for line in lines if line.split(":")[0] in CRATES]
    return "\n".join(kept + ["bench: " + " ".join(CRATES) + " sqlite_items"]) + "\n"


def write_repository(top, out):
    for crate in CRATES:
        for part in ["src", "specs", "proofs"]:
            shutil.copytree(top / "crates" / crate / part, out / "crates" / crate / part, dirs_exist_ok=True)
    (out / "crates.txt").write_text(crates_txt(top))
    bench = out / "crates" / "bench"
    for folder in ["src", "specs", "proofs/sample/smallest", "proofs/sample/names"]:
        (bench / folder).mkdir(parents=True, exist_ok=True)
    steps = top / "crates" / "kom_steps"
    (bench / "src" / "main.rt").write_text("//! A loop, run often.\n#![tactic(auto)]\n\n" + MAIN)
    shutil.copy(steps / "src/tests/sample.rt", bench / "src/sample.rt")
    (bench / "specs/Lib.antt").write_text("")
    (bench / "proofs/Lib.antt").write_text("")
    for proof in ["smallest/Answers.antt", "names/Invariants.antt"]:
        text = (steps / "proofs/tests/sample" / proof).read_text()
        text = text.replace("Rattle.kom_steps.proofs.tests.sample", "Rattle.bench.proofs.sample")
        (bench / "proofs/sample" / proof).write_text(text)


def main():
    top, out = top_and_folder()
    write_repository(top, out)
    bench = out / "crates" / "bench"
    subprocess.run(["rt", "run"], cwd=bench, check=True)
    programs = [p for p in (bench / "out").rglob("bench*") if p.is_file() and p.stat().st_mode & 0o111]
    best = min(seconds(programs[0]) for _ in range(5))
    print(f"{best / TURNS * 1e9:.1f} ns per turn")


main()
