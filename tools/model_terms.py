"""Terms of the model from the text of a record.

A `System` is given by the parts of a system file, and `Record.read` reads the lines of a trace of
it. What the text leaves out (bodies, the item of a Did, how answers go on) is filled in by following
the lines. `spec_module` writes the system, its plan and the record as definitions, and
`proof_module` the proof that the record is legal and finished and has that text. The prover computes
each of these facts with the definitions, so a mistake made here cannot prove a wrong one.
"""

EVENTS = ["SetTimer", "CancelTimer", "Timeout", "Message"]


def number(n):
    return f"pos {n}" if n >= 0 else f"negsuc {-n - 1}"


def value(n):
    return "(" + number(n) + ")"


def many(items):
    return "(" + " ∷ ".join(list(items) + ["[]"]) + ")"


def option(x):
    return "None" if x is None else f"(Some {x})"


def truth(b):
    return "true" if b else "false"


def name(text):
    return many(str(ord(c)) for c in text)


def place(p):
    return f"(record {{ slot = {option(p[0])}; port = {p[1]} }})"


class Kind:
    """A component type. Ports are (name, port type, provided), variables (name, first value), slots
    (name, type, arguments), channels (name, port type, plus, minus, selectors), handlers (name, what
    it handles, off, block)."""

    def __init__(self, name, ports=(), vars=(), slots=(), channels=(), handlers=()):
        self.name, self.ports, self.vars = name, list(ports), list(vars)
        self.slots, self.channels, self.handlers = list(slots), list(channels), list(handlers)

    def term(self):
        ports = many(f"record {{ name = {name(n)}; port = {t}; provided = {truth(p)} }}" for n, t, p in self.ports)
        vars = many(f"record {{ name = {name(n)}; first = {number(v)} }}" for n, v in self.vars)
        slots = many(f"record {{ name = {name(n)}; child = " + ("None" if k is None else f"Some (record {{ kind = {k}; args = {many(map(value, args))} }})") + " }" for n, k, args in self.slots)
        ends = lambda p: "None" if p is None else f"(Some {place(p)})"
        channels = many(f"record {{ name = {name(n)}; port = {t}; plus = {ends(p)}; minus = {ends(m)}; plus_when = {pw}; minus_when = {mw} }}" for n, t, p, m, pw, mw in self.channels)
        handlers = many(f"record {{ name = {name(n)}; on = {on}; off = {truth(off)}; block = {block} }}" for n, on, off, block in self.handlers)
        return f"record {{ name = {name(self.name)}; ports = {ports}; vars = {vars}; slots = {slots}; channels = {channels}; handlers = {handlers} }}"


class System:
    """Event types are (name, parent, own attributes), port types (plus, minus)."""

    def __init__(self, events, ports, kinds, root, args=()):
        self.events, self.ports, self.kinds, self.root, self.args = events, ports, kinds, root, args
        self.event_names = EVENTS + [n for n, _, _ in events]

    def rows(self):
        built_in = [(None, 2), (None, 1), (None, 1), (None, 2)]
        events = many(f"record {{ parent = {option(p)}; own = {o} }}" for p, o in built_in + [(p, o) for _, p, o in self.events])
        ports = many(f"record {{ plus = {many(map(str, p))}; minus = {many(map(str, m))} }}" for p, m in [((2,), (0, 1)), ((3,), (3,))] + self.ports)
        return events, ports

    def has_init(self, k):
        return any("Init" in h[1] for h in self.kinds[k].handlers)

    def first_subs(self, k):
        return [i for i, h in enumerate(self.kinds[k].handlers) if not h[2] and "Init" not in h[1]]

    def first_body(self, k, depth, state=None):
        kind = self.kinds[k]
        initialised = state is not None or not self.has_init(k)
        return dict(kind=k, vars=list(state) if state is not None else [v for _, v in kind.vars],
                    subs=self.first_subs(k) if initialised else [], slots=[c for _, c, _ in kind.slots],
                    wires=[[p is None or m is None, p, m] for _, _, p, m, _, _ in kind.channels],
                    depth=depth, active=False, init=initialised)

    def event(self, event, values):
        return f"(record {{ kind = {self.event_names.index(event)}; values = {many(map(value, values))} }})"


def body(b):
    ends = lambda p: "None" if p is None else f"(Some {place(p)})"
    wires = many(f"record {{ held = {truth(h)}; plus = {ends(p)}; minus = {ends(m)} }}" for h, p, m in b["wires"])
    return f"(record {{ kind = {b['kind']}; vars = {many(map(value, b['vars']))}; subs = {many(map(str, b['subs']))}; slots = {many(map(option, b['slots']))}; wires = {wires}; depth = {b['depth']}; active = {truth(b['active'])}; initialised = {truth(b['init'])} }})"


class Record:
    """The entries of a record, read from its text. `subs` gives the subscriptions of a body after
    the Did at a position, where a handler has changed them."""

    def __init__(self, system, text, subs={}):
        self.system, self.subs = system, subs
        self.bodies, self.entries, self.jobs, self.backs = {}, [], {}, {}
        self.tooks, self.dids = {}, {}
        self.grow(system.root, 1)
        lines = text.strip("\n").split("\n")
        self.lines = ["trace 1"] + lines
        while lines and not lines[0].startswith("end "):
            words = lines.pop(0).split()
            below = []
            while lines and lines[0].startswith("  "):
                below.append(lines.pop(0).split())
            self.read(words, below)

    def grow(self, kind, depth, state=None):
        """A new instance with its tree, numbered as they are created."""
        n = len(self.bodies)
        self.bodies[n] = self.system.first_body(kind, depth, state)
        for _, child, _ in self.system.kinds[kind].slots:
            if child is not None:
                self.grow(child, depth + 1)
        return n

    def kind_of(self, c):
        return self.system.kinds[self.bodies[c]["kind"]]

    def control(self, words):
        numbers = lambda ws: many(value(int(v)) for v in ws)
        simple = {"start": "Start", "stop": "Stop", "dump": "Dump"}
        if words[0] in simple:
            return f"Control {simple[words[0]]}"
        if words[0] == "init":
            return f"Control (Init {numbers(words[1:])})"
        if words[0] == "fault":
            return f"Control (Fault {words[1]} {words[2]})"
        return f"Control (Dumped {words[1]} {numbers(words[2:])})"

    def item(self, c, words):
        if words[0] not in ("event", "reply"):
            return self.control(words)
        chan, dir, no, port, side, event = words[1:7]
        p, q = map(int, no.split("."))
        port = [t[0] for t in self.kind_of(c).ports].index(port)
        back = "Plain" if words[0] == "event" else self.backs[(p, q)]
        return f"Arrival {chan} {dir.capitalize()} (record {{ position = {p}; place = {q} }}) {port} {side.capitalize()} {self.system.event(event, map(int, words[7:]))} {back}"

    def read(self, words, below):
        position, w = int(words[0]), int(words[1])
        assert position == len(self.entries), (position, words)
        if words[2] == "took":
            c = int(words[3])
            item = self.item(c, words[4:])
            self.jobs[position] = self.tooks[position] = (w, c, item, words[4:])
            self.entries.append(f"Took {w} {c} ({item})")
        elif words[2] == "moved":
            released = many(f"record {{ chan = {r[1]}; event = {self.system.event(r[3], map(int, r[4:]))} }}" for r in below)
            self.entries.append(f"Moved {w} {words[3]} {released}")
        else:
            self.read_did(position, w, words, below)

    def passed_on(self, words):
        """How an arrived event goes on when it is passed on."""
        if words[0] == "event":
            return "Plain"
        p, q = map(int, words[3].split("."))
        s = int(self.backs[(p, q)].split()[1].strip(")"))
        p, q = map(int, self.tooks[s][3][3].split("."))
        relay = self.dids.get(p) if q == 0 else None
        if relay is not None and self.tooks[relay][3][0] in ("event", "reply"):
            return f"(To {relay})"
        return "Home"

    def read_did(self, position, w, words, below):
        c = int(words[3])
        took = next(p for p, job in self.jobs.items() if job[0] == w and job[1] == c)
        item = self.jobs.pop(took)[3]
        self.dids[position] = took
        to, unreached, b = "None", [], self.bodies[c]
        if words[4] == "void":
            outcome = "outcome.Void"
        elif words[4] == "fault":
            outcome = f"(outcome.Fault {words[5]})"
            to = "None" if words[7] == "none" else f"(Some {words[7]})"
            b["active"] = False
        else:
            b["active"], b["vars"] = words[5] == "active", [int(v) for v in words[6:]]
            if item[0] == "init":
                b["init"], b["subs"] = True, self.system.first_subs(b["kind"])
            b["subs"] = self.subs.get(position, b["subs"])
            offered = 0
            if item[0] in ("event", "reply"):
                self.backs[(position, 0)] = self.passed_on(item)
                offered = 1
            effects = []
            for e in below:
                if e[0] == "unreached":
                    unreached.append(e[1])
                    continue
                if e[0] == "escalate":
                    to = "None" if e[2] == "none" else f"(Some {e[2]})"
                if e[0] in ("trigger", "answer"):
                    self.backs[(position, offered)] = f"(To {took})" if e[0] == "answer" else "Plain"
                    offered += 1
                effects.append(self.effect(c, e))
            outcome = f"(outcome.Done {body(b)} {many(effects)})"
        self.entries.append(f"Did {w} {c} {took} {outcome} {to} {many(unreached)}")

    def effect(self, c, e):
        b, kind = self.bodies[c], self.kind_of(c)
        slot = lambda n: [x[0] for x in kind.slots].index(n)
        wire = lambda n: [x[0] for x in kind.channels].index(n)
        if e[0] == "trigger":
            return f"effect.Trigger {[t[0] for t in kind.ports].index(e[1])} {self.system.event(e[2], map(int, e[3:]))}"
        if e[0] == "answer":
            return f"effect.Answer {self.system.event(e[1], map(int, e[2:]))}"
        if e[0] == "escalate":
            return "effect.Escalate"
        if e[0] in ("start", "stop", "dump", "destroy"):
            if e[0] == "destroy":
                b["slots"][slot(e[1])] = None
            return f"effect.{e[0].capitalize()} {slot(e[1])}"
        if e[0] in ("hold", "resume"):
            b["wires"][wire(e[1])][0] = e[0] == "hold"
            return f"effect.{e[0].capitalize()} {wire(e[1])}"
        if e[0] == "create":
            k = [x.name for x in self.system.kinds].index(e[2])
            state = [int(v) for v in e[5:]] if len(e) > 4 and e[4] == "state" else None
            assert self.grow(k, b["depth"] + 1, state) == int(e[3])
            b["slots"][slot(e[1])] = k
            birth = f"(State {many(map(value, state))})" if state is not None else f"(Args {many(value(int(v)) for v in e[4:])})"
            return f"effect.Create {slot(e[1])} {k} {birth}"
        channel, end = e[1].split(".")
        at = 1 if end == "plus" else 2
        if e[0] == "unplug":
            b["wires"][wire(channel)][at] = None
            return f"effect.Unplug {wire(channel)} {end.capitalize()}"
        where, port = e[2].split(".")
        if where == "self":
            p = (None, [t[0] for t in kind.ports].index(port))
        else:
            child = self.system.kinds[b["slots"][slot(where)]]
            p = (slot(where), [t[0] for t in child.ports].index(port))
        b["wires"][wire(channel)][at] = p
        return f"effect.Plug {wire(channel)} {end.capitalize()} {place(p)}"


SPEC_HEAD = """use Rattle.std.specs.Prelude.{◌≡◌, ℕ, ℤ, pos, negsuc, Bool, true, false, List, [], ◌∷◌, Option, Some, None, codes}
use Rattle.kom_base.specs.declared.numbers.Dir.TheVariants.{Plus, Minus}
use Rattle.kom_base.specs.declared.numbers.Side.TheVariants.{Outside, Inside}
use Rattle.kom_events.specs.declared.selector.Op.TheVariants as op
use Rattle.kom_lang.specs.Declarations.{Declarations}
use Rattle.kom_lang.specs.declared.kind.Kind.{Kind}
use Rattle.kom_lang.specs.declared.stmt.On.TheVariants as on
use Rattle.kom_lang.specs.declared.stmt.Stmt.TheVariants as stmt
use Rattle.kom_lang.specs.declared.stmt.Target.TheVariants as target
use Rattle.kom_lang.specs.declared.expr.Expr.TheVariants as expr
use Rattle.kom_lang.specs.declared.expr.Binary.TheVariants as binary
use Rattle.kom_lang.specs.declared.body.Birth.TheVariants.{Args, State}
use Rattle.kom_lang.specs.declared.body.Effect.TheVariants as effect
use Rattle.kom_record.specs.declared.plan.Plan.{Plan}
use Rattle.kom_record.specs.declared.item.Control.TheVariants.{Init, Start, Stop, Fault, Dump, Dumped}
use Rattle.kom_record.specs.declared.item.Item.TheVariants.{Control, Arrival}
use Rattle.kom_record.specs.declared.item.Back.TheVariants.{Plain, To, Home}
use Rattle.kom_record.specs.declared.entry.Outcome.TheVariants as outcome
use Rattle.kom_record.specs.declared.entry.Entry.{Entry}
use Rattle.kom_record.specs.declared.entry.Entry.TheVariants.{Took, Did, Moved}
use Rattle.kom_record.specs.Entries.{History}
use Rattle.kom_record.specs.Trace.{Text}
use Rattle.kom_rows.specs.Worked.{IsRecord, IsSimulation}
"""


def spec_module(title, about, system, record, plan, claim):
    """The definitions of an example: its system S, its plan Z, the entries e0 .. and the records h0
    .. before and after each, its text, and what is claimed of it."""
    events, ports = system.rows()
    n = len(record.entries)
    out = [f"-- {about}", SPEC_HEAD]
    for i, kind in enumerate(system.kinds):
        out.append(f"abbrev pub kind{i} : Kind\nkind{i} = {kind.term()}\n")
    kinds = many(f"kind{i}" for i in range(len(system.kinds)))
    out.append(f"abbrev pub S : Declarations\nS = record {{ events = {events}; ports = {ports}; kinds = {kinds}; root = record {{ kind = {system.root}; args = {many(map(value, system.args))} }} }}\n")
    out.append(f"abbrev pub names : List Text\nnames = {many(name(e) for e in system.event_names)}\n")
    raises = many(f"record {{ time = {t}; chan = {x}; event = {system.event(e, vs)} }}" for t, x, e, vs in plan.get("raises", ()))
    settings = dict(seed=0, steps=100000, instants=100000, lo=1, hi=1)
    settings.update({k: v for k, v in plan.items() if k != "raises"})
    out.append("abbrev pub Z : Plan\nZ = record { " + "; ".join(f"{k} = {v}" for k, v in settings.items()) + f"; raises = {raises} }}\n")
    for i, entry in enumerate(record.entries):
        out.append(f"abbrev pub e{i} : Entry\ne{i} = {entry}\n")
    out.append("abbrev pub h0 : History\nh0 = []\n")
    for i in range(n):
        out.append(f"abbrev pub h{i + 1} : History\nh{i + 1} = e{i} ∷ h{i}\n")
    out.append("abbrev pub text : List Text\ntext =\n    " + "\n    ∷ ".join(f'codes "{line}"' for line in record.lines) + "\n    ∷ []\n")
    out.append(f"abbrev pub {title} : Type 0\n{title} = {claim} names S Z h{n} text")
    return "\n".join(out) + "\n"


PROOF_HEAD = """use Rattle.std.specs.Prelude.{◌≡◌, ℕ, ℤ, pos, negsuc, Bool, true, false, List, [], ◌∷◌, Option, Some, None}
use Rattle.std.proofs.Common.{refl}
use Rattle.kom_base.specs.declared.numbers.Dir.TheVariants.{Plus, Minus}
use Rattle.kom_base.specs.declared.numbers.Side.TheVariants.{Outside, Inside}
use Rattle.kom_lang.specs.Compute.{computing}
use Rattle.kom_record.specs.declared.item.Control.TheVariants.{Init, Start, Stop, Fault, Dump, Dumped}
use Rattle.kom_record.specs.declared.item.Item.TheVariants.{Control, Arrival}
use Rattle.kom_record.specs.declared.item.Back.TheVariants.{Plain, To, Home}
use Rattle.kom_record.specs.Ready.{is_finished}
use Rattle.kom_record.specs.Legal.{IsLegal, IsAllowed}
use Rattle.kom_record.specs.Simulated.{IsInOrder}
use Rattle.kom_record.specs.Trace.{trace_lines, tracing}
use Rattle.kom_record.specs.Model.{model}
"""


def proof_module(title, record, in_order, steps=40):
    """The proof of an example, by computing. `steps` is at least the number of small steps of each of
    its handlings."""
    n = len(record.entries)
    cited = ", ".join(["S", "Z", "names", "text", title] + [f"h{i}" for i in range(n + 1)] + [f"e{i}" for i in range(n)])
    out = [PROOF_HEAD + f"use Rattle.kom_rows.specs.{title}.{{{cited}}}\n"]
    for i, entry in enumerate(record.entries):
        words = entry.split(" ")
        if words[0] == "Took":
            proof, opened = "record { free = refl; ready = refl; next = refl }", "model"
        elif words[0] == "Did":
            w, c, item, _ = record.tooks[int(words[3])]
            ends = "refl" if entry.split(" ", 4)[4].startswith("outcome.Void") else f"({steps}, refl)"
            proof = f"record {{ job = record {{ took = {words[3]}; w = {w}; c = {c}; item = {item} }}; body = _; in_hand = refl; worker = refl; component = refl; body_is = refl; outcome = {ends}; told = refl; unreached = refl }}"
            opened = "model computing"
        else:
            proof, opened = "record { not_closed = refl; no_job = refl; none_ready = refl; due = refl; all_released = refl }", "model"
        out.append(f"allowed_{i} : IsAllowed S Z h{i} e{i}\nunfolding {opened}\nallowed_{i} = {proof}\n")
    legal, order = "tt", "tt"
    facts = {"Took": "(refl, refl, refl)", "Did": "(refl, refl)", "Moved": "refl"}
    for i, entry in enumerate(record.entries):
        legal, order = f"({legal}, allowed_{i})", f"({order}, {facts[entry.split(' ')[0]]})"
    out.append(f"legal : IsLegal S Z h{n}\nunfolding model\nlegal = {legal}\n")
    out.append(f"finished : is_finished S Z h{n} ≡ true\nunfolding model\nfinished = refl\n")
    out.append(f"text_is : trace_lines names S Z h{n} ≡ text\nunfolding model tracing\ntext_is = refl\n")
    fields = "legal = legal; finished = finished; text = text_is"
    if in_order:
        out.append(f"in_order : IsInOrder S Z h{n}\nunfolding model\nin_order = {order}\n")
        fields += "; in_order = in_order"
    out.append(f"pub worked : {title}\nworked = record {{ {fields} }}")
    return "\n".join(out) + "\n"
