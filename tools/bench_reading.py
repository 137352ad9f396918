#!/usr/bin/env python3
"""Times `kompics check` on large system files of each kind that could hurt.

Usage: bench_reading.py PROGRAM. For texts of 128 KiB up to 1 MiB it prints the seconds of processor
time, the peak of memory in MB, and the first line of what was written.
"""
import os
import sys
import tempfile

MIB = 1 << 20


def filled(head, part, tail, size):
    """Head, as many parts as fit, and tail; a part may take its number."""
    parts, length, number = [], len(head) + len(tail), 0
    while True:
        text = part(number)
        if length + len(text) > size:
            return (head + "".join(parts) + tail).ljust(size)
        parts.append(text)
        length += len(text)
        number += 1


def root(text):
    return text + "component Main { }\nroot Main();\n"


def operators(number):
    """An assignment with 32 operators."""
    return "x = " + "+".join(["x"] * 33) + ";\n"


def tests(size):
    """128 port types that list 64 event types each, and selectors that test them."""
    out = ["system 2;\n"]
    out += [f"event E{n}();\n" if n == 0 else f"event E{n} : E{n - 1}();\n" for n in range(256)]
    for n in range(126):
        out.append(f"port P{n} {{ " + "".join(f"plus E{(n + k) % 256}; " for k in range(64)) + "}\n")
    tail = "component Main { }\nroot Main();\n"
    length = sum(map(len, out)) + len(tail)
    for n in range(126):
        lines = []
        for k in range(64):
            line = f"channel k{k} : P{n} from free to free plus when " + " && ".join(
                f"Message.src == {k}" if j == 9 else f"E{(n + k + j) % 256}.a == 1" for j in range(8)
            ) + ";\n"
            lines.append(line)
        text = f"component C{n} {{\n" + "".join(lines) + "}\n"
        if length + len(text) > size:
            break
        out.append(text)
        length += len(text)
    return ("".join(out) + tail).ljust(size)


def accepted(size):
    """Component types up to the limits, each with all that it may have, until the text is full."""
    out = ["system 2;\n", "event E(a, b, c, d, e, f, g, h);\n", "port P { plus E; minus E; }\n"]
    tail = "root C0();\n"
    length = sum(map(len, out)) + len(tail)
    for n in range(128):
        part = [f"component C{n} {{\n"]
        part += [f"provides p{k} : P;\n" for k in range(8)] + [f"requires q{k} : P;\n" for k in range(8)]
        part += [f"var v{k} = {k};\n" for k in range(64)]
        part += [f"slot s{k};\n" for k in range(32)]
        part += [f"channel k{k} : P from free to free plus when E.a > {k};\n" for k in range(64)]
        for k in range(60):
            body = "".join(f"v{j % 64} = v{(j + 1) % 64} + it.a * {j} - (v1 / 3);\n" for j in range(3))
            part.append(f"on E at p{k % 8} as h{k} {{\n{body}trigger E(1, 2, 3, 4, 5, 6, 7, v0) at p1;\n}}\n")
        part.append("}\n")
        text = "".join(part)
        if length + len(text) > size:
            break
        out.append(text)
        length += len(text)
    return ("".join(out) + tail).ljust(size)


KINDS = {
    "one identifier": lambda size: "system 1;\ncomponent " + "a" * (size - 60) + " { }\nroot Main();\n",
    "comments": lambda size: filled(root("system 1;\n"), lambda n: "# no more than a remark\n", "", size),
    "parentheses": lambda size: filled("system 1;\ncomponent Main { on start as h { let x = ", lambda n: "(", "", size),
    "signs": lambda size: filled("system 1;\n", lambda n: "{};", "", size),
    "operators": lambda size: filled("system 1;\ncomponent Main { var x; on start as h {\n", operators, "} }\nroot Main();\n", size),
    "blocks": lambda size: filled("system 1;\ncomponent Main { var x; on start as h {\n", lambda n: "if x {" * 15 + "}" * 15 + "\n", "} }\nroot Main();\n", size),
    "names": lambda size: filled("system 1;\ncomponent Main { on start as h {\n", lambda n: f"let n{n} = {n};\n", "} }\nroot Main();\n", size),
    "event types": lambda size: filled("system 1;\n", lambda n: f"event E{n} : E{n + 1}();\n", "", size),
    "components": lambda size: filled("system 1;\n", lambda n: f"component C{n} {{ slot s : C{n + 1}(); }}\n", "root C0();\n", size),
    "selectors": tests,
    "declarations": accepted,
}


def run(program, path):
    """Runs `check`, and gives seconds, MB and the first line."""
    reading, writing = os.pipe()
    child = os.fork()
    if child == 0:
        os.dup2(writing, 1)
        os.close(reading)
        os.execv(program, [program, "check", path])
    os.close(writing)
    with os.fdopen(reading, "rb") as out:
        text = out.read()
    _, _, used = os.wait4(child, 0)
    return used.ru_utime + used.ru_stime, used.ru_maxrss / 1024, text.split(b"\n")[0].decode()


def main():
    program = os.path.abspath(sys.argv[1])
    with tempfile.TemporaryDirectory() as folder:
        path = os.path.join(folder, "system.kom")
        for kind, text_of in KINDS.items():
            row = []
            for size in (MIB // 8, MIB // 4, MIB // 2, MIB):
                text = text_of(size)
                assert len(text) <= size
                with open(path, "w", encoding="ascii") as out:
                    out.write(text)
                seconds, memory, line = run(program, path)
                row.append(f"{seconds:.3f}")
            print(f"{kind:15} {' '.join(row)} s  {memory:4.0f} MB  {line}")


if __name__ == "__main__":
    main()
