"""Writes the examples of crates/kom_rows: a system and a plan each, with the trace in tools/traces.

Run it at the top of the repository: `python3 tools/worked_records.py`. It writes specs/, proofs/ and
src/lib.rt of that crate anew.
"""
import os
import shutil

from model_terms import Kind, Record, System, many, name, number, proof_module, spec_module, value

CRATE = "crates/kom_rows/"


def it(attribute=0):
    return f"(expr.It {attribute})"


def num(n):
    return f"(expr.Number {value(n)})"


def var(i):
    return f"(expr.Var {i})"


def local(i):
    return f"(expr.Local {i})"


def pair(operator, left, right):
    return f"(expr.Pair binary.{operator} {left} {right})"


def block(*statements):
    return many(statements)


def set_var(i, expression):
    return f"stmt.SetVar {i} {expression}"


def when(test, *statements):
    return f"stmt.If {test} {block(*statements)} None"


def trigger(event, values, port):
    return f"stmt.Trigger {event} {many(values)} {port}"


def selector(*tests):
    return many(f"record {{ kind = {k}; attr = {a}; op = op.{o}; number = {number(n)} }}" for k, a, o, n in tests)


ANY = "[]"
DIGIT = pair("Add", pair("Mul", var(0), num(10)), it())
SUM = Kind("Sum", ports=[("p", 2, False)], vars=[("got", 0)], handlers=[("h", "on.Event 4 0", False, block(set_var(0, DIGIT)))])
N_AND_SWAP = [("N", None, 1), ("Swap", None, 0)]
P_AND_C = [((4,), ()), ((), (5,))]
K = ("k", 2, (None, 0), (0, 0), ANY, ANY)
EXAMPLES = []


def example(title, doc, system, in_order=True, subs={}, **plan):
    EXAMPLES.append((title, doc, system, in_order, subs, plan))


def remembers_fault(slot):
    return ("f", f"on.Fault {name(slot)} {name('n')}", False, block(set_var(0, local(1))))


example("Smallest", "A component without handlers is started, and that is all.",
        System([], [], [Kind("Main")], 0))

example("Subtypes", "An event runs the handlers of its type and of the types above it, in the order in which they were subscribed.",
        System([("A", None, 1), ("B", 4, 1)], [((), (4,))], [Kind("Main", ports=[("p", 2, True)], vars=[("x", 0)], handlers=[
            ("ha", "on.Event 4 0", True, block(set_var(0, pair("Add", pair("Mul", var(0), num(10)), num(1))))),
            ("hb", "on.Event 5 0", False, block(set_var(0, pair("Add", pair("Mul", var(0), num(10)), num(2))))),
            ("go", "on.Start", False, block("stmt.Subscribe 0"))])], 0), subs={1: [1, 2, 0]}, raises=[(5, 0, "B", [7, 8])])

LEAF = Kind("Leaf", ports=[("p", 2, False)], vars=[("got", 0)], handlers=[("h", "on.Event 4 0", False, block(set_var(0, pair("Add", var(0), it()))))])


def selecting(tests):
    return System([("N", None, 1)], [((4,), ())], [LEAF, Kind("Main", ports=[("p", 2, False)], slots=[("a", 0, []), ("b", 0, [])], channels=[
        ("k", 2, (None, 0), (0, 0), tests, ANY), ("l", 2, (None, 0), (1, 0), selector((4, 0, "Ge", 1)), ANY)])], 1)


RAISED = [(0, 0, "N", [i]) for i in (1, 2, 0)]
example("Selectors", "Channels let pass what their selectors say.", selecting(selector((4, 0, "Eq", 1))), raises=RAISED)
example("SelectorsOfSeveralTests", "An event passes a selector of two tests where it passes both.",
        selecting(selector((4, 0, "Ge", 1), (4, 0, "Le", 1))), raises=RAISED)

FOUR = [(1, 0, "N", [i]) for i in (1, 2, 3, 4)]
example("HoldAndResume", "A held channel keeps what enters it, and gives it on in order after it is resumed.",
        System(N_AND_SWAP, P_AND_C, [SUM, Kind("Main", ports=[("p", 2, False)], slots=[("a", 0, [])], channels=[K], handlers=[
            ("h", "on.Event 4 0", False, block(when(pair("Eq", it(), num(1)), "stmt.Hold 0"), when(pair("Eq", it(), num(4)), "stmt.Resume 0")))])], 1), raises=FOUR)

example("FreeSource", "What is offered while the source end of a channel is free does not enter it.",
        System(N_AND_SWAP, P_AND_C, [SUM, Kind("Main", ports=[("p", 2, False)], slots=[("a", 0, [])], channels=[K], handlers=[
            ("h", "on.Event 4 0", False, block(when(pair("Eq", it(), num(1)), "stmt.Hold 0", "stmt.Unplug 0 Plus"),
                                              when(pair("Eq", it(), num(3)), "stmt.Plug 0 Plus (target.Own 0)", "stmt.Resume 0")))])], 1), raises=FOUR)

MAIN = dict(ports=[("p", 2, False), ("c", 3, True)], slots=[("a", 0, []), ("b", None, [])], channels=[K])
example("Replacement", "A component is replaced by one that goes on from its state, and no event is lost.",
        System(N_AND_SWAP, P_AND_C, [SUM, Kind("Main", **MAIN, handlers=[
            ("go", "on.Event 5 1", False, block("stmt.Hold 0", "stmt.Stop 0", "stmt.Dump 0")),
            ("over", f"on.Dumped {name('s')}", False, block("stmt.Unplug 0 Minus", "stmt.CreateFromState 1 0", f"stmt.Plug 0 Minus (target.Child 1 {name('p')})", "stmt.Resume 0", "stmt.Start 1", "stmt.Destroy 0"))])], 1), raises=[(1, 0, "N", [1]), (2, 1, "Swap", []), (2, 0, "N", [2]), (3, 0, "N", [3])])

example("FaultPassesUp", "A fault passes ancestors without a fault handler, and reaches the nearest that has one.",
        System(N_AND_SWAP, P_AND_C, [SUM,
            Kind("Low", ports=[("p", 2, False)], vars=[("x", 0)], slots=[("a", 0, [])], channels=[K], handlers=[("go", "on.Start", False, block(set_var(0, num(5)), "stmt.Unplug 0 Minus"))]),
            Kind("Mid", slots=[("low", 1, [])]),
            Kind("Main", vars=[("last", 0)], slots=[("mid", 2, [])], handlers=[remembers_fault("s")])], 3))

example("UnhandledFault", "A fault of which no ancestor is told closes the record.",
        System([], [], [Kind("Main", vars=[("x", 0)], handlers=[("go", "on.Start", False, block(set_var(0, pair("Div", num(1), var(0)))))])], 0))

example("DestroyedAtWork", "A component that is destroyed while a worker handles an item of it ends that job with nothing. Two workers.",
        System(N_AND_SWAP, P_AND_C, [SUM, Kind("Main", **MAIN, handlers=[
            ("go", "on.Event 5 1", False, block("stmt.Hold 0", "stmt.Unplug 0 Minus", "stmt.Destroy 0"))])], 1), in_order=False, raises=[(1, 0, "N", [1]), (1, 1, "Swap", []), (1, 0, "N", [2])])

example("StepsUsedUp", "A run that would go on for ever ends when its steps are used up.",
        System([("Ping", None, 0), ("Pong", None, 0)], [((5,), (4,))], [
            Kind("A", ports=[("p", 2, False)], handlers=[("go", "on.Start", False, block(trigger(4, [], 0))), ("h", "on.Event 5 0", False, block(trigger(4, [], 0)))]),
            Kind("B", ports=[("p", 2, True)], handlers=[("h", "on.Event 4 0", False, block(trigger(5, [], 0)))]),
            Kind("Main", slots=[("a", 0, []), ("b", 1, [])], channels=[("k", 2, (1, 0), (0, 0), ANY, ANY)])], 2), steps=10)

example("Timers", "Timers go off in order of their times, and one that has gone off cannot be cancelled.",
        System([], [], [Kind("Main", ports=[("t", 0, False)], vars=[("log", 0)], handlers=[
            ("go", "on.Start", False, block(*[trigger(0, [num(a), num(d)], 0) for a, d in ((1, 0), (2, 5), (3, 5))])),
            ("h", "on.Event 2 0", False, block(set_var(0, DIGIT), when(pair("Eq", it(), num(2)), trigger(1, [num(1)], 0))))])], 0))

NODES = System([("Hi", 3, 1)], [], [
    Kind("Node", ports=[("net", 1, False)], vars=[("me", 0), ("got", 0)], handlers=[
        ("born", f"on.Init {many([name('id')])}", False, block(set_var(0, local(0)))),
        ("go", "on.Start", False, block(trigger(4, [var(0), pair("Sub", num(3), var(0)), var(0)], 0))),
        ("h", "on.Event 4 0", False, block(set_var(1, pair("Add", var(1), it(2)))))]),
    Kind("Main", ports=[("net", 1, False)], slots=[("a", 0, [1]), ("b", 0, [2])], channels=[
        ("k", 1, (None, 0), (0, 0), selector((3, 1, "Eq", 1)), ANY), ("l", 1, (None, 0), (1, 0), selector((3, 1, "Eq", 2)), ANY)])], 1)
example("Network", "Messages go out to the network and come back after a delay, here the same for all.", NODES, seed=42, lo=7, hi=7)
example("RandomDelays", "Messages with random delays: the one that was sent later comes first.", NODES, seed=42, lo=5, hi=20)

example("TwoChannels", "One event that enters two channels is received from each, the first channel first.",
        System(N_AND_SWAP, P_AND_C, [SUM, Kind("Main", ports=[("p", 2, False)], slots=[("a", 0, [])], channels=[K, ("l",) + K[1:]])], 1), raises=[(1, 0, "N", [1])])

example("FaultInInit", "A component whose Init faults stays without subscriptions, and Start leaves it passive.",
        System([], [], [Kind("Kid", vars=[("x", 7)], handlers=[("born", f"on.Init {many([name('a')])}", False, block(set_var(0, pair("Div", num(1), local(0)))))]),
                        Kind("Main", vars=[("last", 0)], slots=[("k", 0, [0])], handlers=[remembers_fault("s")])], 1))

SERVER = Kind("Server", ports=[("q", 2, True)], handlers=[("h", "on.Event 4 0", False, block(f"stmt.Answer 5 {many([pair('Add', it(), num(1))])}"))])
CLIENT = Kind("Client", ports=[("q", 2, False)], vars=[("got", 0)], handlers=[
    ("born", f"on.Init {many([name('n')])}", False, block(set_var(0, local(0)))),
    ("go", "on.Start", False, block(trigger(4, [var(0)], 0))),
    ("h", "on.Event 5 0", False, block(set_var(0, it())))])
ASK_AND_SAY = [("Ask", None, 1), ("Say", None, 1)]
Q = [((5,), (4,))]
CHANNEL = ("k", 2, (0, 0), (1, 0), ANY, ANY)
example("Replies", "A server answers two clients, and each answer reaches the client that asked.",
        System(ASK_AND_SAY, Q, [SERVER, CLIENT, Kind("Main", slots=[("s", 0, []), ("a", 1, [10]), ("b", 1, [20])], channels=[CHANNEL, ("l", 2, (0, 0), (2, 0), ANY, ANY)])], 2))

example("UnreachedReply", "An answer whose way back was unplugged reaches nothing. Two workers.",
        System(ASK_AND_SAY, Q, [SERVER, CLIENT, Kind("Main", slots=[("s", 0, []), ("a", 1, [10])], channels=[CHANNEL], handlers=[
            ("go", "on.Start", False, block("stmt.Dump 1")), ("cut", f"on.Dumped {name('z')}", False, block("stmt.Hold 0", "stmt.Unplug 0 Plus"))])], 2), in_order=False)

example("RelayedReply", "An answer goes back through the component that had passed the question on.",
        System(ASK_AND_SAY, Q, [SERVER, CLIENT,
            Kind("Wrap", ports=[("q", 2, True)], slots=[("inner", 0, [])], channels=[("w", 2, (0, 0), (None, 0), ANY, ANY)]),
            Kind("Main", slots=[("s", 2, []), ("a", 1, [10])], channels=[CHANNEL])], 3))

LOW = Kind("Low", handlers=[("go", "on.Start", False, block("stmt.Fail 7"))])
MID = Kind("Mid", slots=[("low", 0, [])], handlers=[("f", f"on.Fault {name('s')} {name('n')}", False, block("stmt.Escalate"))])
example("Escalation", "A fault handler passes a fault on to the next ancestor that has one.",
        System([], [], [LOW, MID, Kind("Main", vars=[("last", 0)], slots=[("mid", 1, [])], handlers=[remembers_fault("s")])], 2))
example("UnhandledEscalation", "A fault that is passed on where no ancestor is left closes the record.",
        System([], [], [LOW, MID, Kind("Main", vars=[("last", 0)], slots=[("mid", 1, [])])], 2))


def snake(title):
    return "".join("_" + c.lower() if c.isupper() else c for c in title).strip("_")


def trace(title):
    """The lines of the example's trace after its head line."""
    with open(f"tools/traces/{snake(title)}.txt") as file:
        head, lines = file.read().split("\n", 1)
    assert head == "trace 1"
    return lines


def write(path, text):
    os.makedirs(os.path.dirname(CRATE + path), exist_ok=True)
    with open(CRATE + path, "w") as file:
        file.write(text)


WORKED = """-- What an example shows of a record.
use Rattle.std.specs.Prelude.{◌≡◌, Bool, true, List}
use Rattle.kom_lang.specs.Declarations.{Declarations}
use Rattle.kom_record.specs.declared.plan.Plan.{Plan}
use Rattle.kom_record.specs.Entries.{History}
use Rattle.kom_record.specs.Ready.{is_finished}
use Rattle.kom_record.specs.Legal.{IsLegal}
use Rattle.kom_record.specs.Simulated.{IsInOrder}
use Rattle.kom_record.specs.Trace.{Text, trace_lines}

-- the record is legal and finished, and these are the lines of its text; `names` are those of the
-- event types
pub record IsRecord (names : List Text) (S : Declarations) (Z : Plan) (R : History) (lines : List Text) : Type 0 where
  pub legal : IsLegal S Z R
  pub finished : is_finished S Z R ≡ true
  pub text : trace_lines names S Z R ≡ lines

-- and besides it is the record of the simulation
pub record IsSimulation (names : List Text) (S : Declarations) (Z : Plan) (R : History) (lines : List Text) : Type 0 where
  pub legal : IsLegal S Z R
  pub finished : is_finished S Z R ≡ true
  pub text : trace_lines names S Z R ≡ lines
  pub in_order : IsInOrder S Z R
"""

FACTS = """-- Single facts of the examples: who is made ready, that a plan fits, that a job is well formed.
use Rattle.std.specs.Prelude.{◌≡◌, ℕ, List, [], ◌∷◌, Option, Some}
use Rattle.kom_base.specs.declared.numbers.Dir.TheVariants.{Plus}
use Rattle.kom_base.specs.declared.numbers.Side.TheVariants.{Outside}
use Rattle.kom_lang.specs.declared.body.Body.{Body}
use Rattle.kom_record.specs.declared.item.Item.{Item}
use Rattle.kom_record.specs.declared.item.Item.TheVariants.{Arrival}
use Rattle.kom_record.specs.declared.item.Back.TheVariants.{Plain}
use Rattle.kom_record.specs.Bodies.{body_at}
use Rattle.kom_record.specs.Plans.{PlanFits, IsWellFormedJob}
use Rattle.kom_record.specs.Answers.{wakes}
use Rattle.kom_rows.specs.DestroyedAtWork as destroyed
use Rattle.kom_rows.specs.Replacement as replacement

-- the Moved of `destroyed_at_work` makes component 0 ready
abbrev pub MovedWakes : Type 0
MovedWakes = wakes destroyed.S destroyed.Z destroyed.h4 destroyed.h5 ≡ 0 ∷ []

-- and its first Did after that makes components 0 and 1 ready
abbrev pub DidWakes : Type 0
DidWakes = wakes destroyed.S destroyed.Z destroyed.h6 destroyed.h7 ≡ 0 ∷ 1 ∷ []

-- the plan of `replacement` fits its system
abbrev pub PlanOfReplacement : Type 0
PlanOfReplacement = PlanFits replacement.S replacement.Z

-- the item of entry 22 of `replacement`, which the new component takes
abbrev pub item : Item
item = Arrival 2 Plus (record { position = 13; place = 0 }) 0 Outside (record { kind = 4; values = Rattle.std.specs.Prelude.pos 2 ∷ [] }) Plain

-- the job of that entry is well formed
abbrev pub JobOfReplacement : Type 0
JobOfReplacement = (b : Body) × (body_at replacement.S replacement.h22 2 ≡ Some b) × IsWellFormedJob replacement.S b item
"""

FACTS_PROOF = """use Rattle.std.proofs.Common.{refl, lit<, lit≤}
use Rattle.kom_record.specs.Model.{model}
use Rattle.kom_record.specs.Plans.{comes_in_at}
use Rattle.kom_record.specs.Answers.{wakes}
use Rattle.kom_rows.specs.Facts.{MovedWakes, DidWakes, PlanOfReplacement, JobOfReplacement}

pub moved_wakes : MovedWakes
unfolding model wakes
moved_wakes = refl

pub did_wakes : DidWakes
unfolding model wakes
did_wakes = refl

pub plan_fits : PlanOfReplacement
unfolding comes_in_at
plan_fits = record {
  some_step = lit≤ tt; steps = lit≤ tt; some_instant = lit≤ tt; instants = lit≤ tt; pair = lit≤ tt; greatest = lit≤ tt; raises = lit≤ tt;
  in_order = refl; times = refl; come_in = refl;
}

pub job_is_well_formed : JobOfReplacement
unfolding model
job_is_well_formed = (_, refl, record {
  kind = lit< tt; vars = refl; slots = refl; wires = refl; subs = refl; children = refl; places = refl; some_depth = lit≤ tt; depth = lit≤ tt; fitting = refl;
})
"""

FACTS_FUNCTIONS = [
    ("moved_wakes", "MovedWakes", "moved_wakes", "The components that a Moved makes ready."),
    ("did_wakes", "DidWakes", "did_wakes", "The components that a Did makes ready, in order of number."),
    ("plan_fits", "PlanOfReplacement", "plan_fits", "The plan of an example fits its system."),
    ("job_is_well_formed", "JobOfReplacement", "job_is_well_formed", "A job of an example is well formed."),
]


def main():
    for folder in ("specs", "proofs"):
        shutil.rmtree(CRATE + folder, ignore_errors=True)
    functions, imports = "", ""
    for title, doc, system, in_order, subs, plan in EXAMPLES:
        record = Record(system, trace(title), subs)
        claim = "IsSimulation" if in_order else "IsRecord"
        write(f"specs/{title}.antt", spec_module(title, doc, system, record, plan, claim))
        write(f"proofs/{title}Worked.antt", proof_module(title, record, in_order))
        function = snake(title)
        write(f"proofs/{function}/Answers.antt", f"use Rattle.kom_rows.proofs.{title}Worked.{{worked}}\nuse Rattle.kom_rows.proofs.{function}.Goals as goal\n\npub returns : goal.returns\nreturns c = worked\n")
        imports += f"ghost use Rattle.kom_rows.specs.{title}.{{{title}}};\n"
        functions += f"\n/// {doc}\npub fn {function}()\n    ensures {{ {title} }}\n{{\n}}\n"
    for function, claim, proof, doc in FACTS_FUNCTIONS:
        write(f"proofs/{function}/Answers.antt", f"use Rattle.kom_rows.proofs.FactsShown.{{{proof}}}\nuse Rattle.kom_rows.proofs.{function}.Goals as goal\n\npub returns : goal.returns\nreturns c = {proof}\n")
        functions += f"\n/// {doc}\npub fn {function}()\n    ensures {{ {claim} }}\n{{\n}}\n"
    imports += "ghost use Rattle.kom_rows.specs.Facts.{" + ", ".join(f[1] for f in FACTS_FUNCTIONS) + "};\n"
    write("specs/Worked.antt", WORKED)
    write("specs/Facts.antt", FACTS)
    write("proofs/FactsShown.antt", FACTS_PROOF)
    write("specs/Lib.antt", "".join(f"pub mod {t}\n" for t in sorted([e[0] for e in EXAMPLES] + ["Facts", "Worked"])))
    write("proofs/Lib.antt", "".join(f"pub mod {t}\n" for t in sorted([e[0] + "Worked" for e in EXAMPLES] + ["FactsShown"])))
    write("src/lib.rt", "//! Examples of whole records, each legal, finished and with the text that is shown.\n#![tactic(auto)]\n\n" + imports + functions)


main()
