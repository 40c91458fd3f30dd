#!/usr/bin/env python3
"""Times `trio complete` beside clingo, which lists all answer sets of the same problem to a file.

    bench/complete.py [--runs N] [NAME ..]

NAME is one of the inputs below; all of them where none is given. Needs clingo and GNU time (Debian's packages `gringo` and `time`). Each
input is made here. The numbered ones are rows of bools that, once true, stay true, each implied by the row before it. `line` is a line with
three messages that passes each on after two instants, with quantifiers and distances; `trace` is a recorded history at the limit of 1,024
cells with two dozen unknown ones; `free15` and `free16` list all values of as many bools, so that the second has twice the histories of the
first. A line of the result has: histories, seconds of both (the least of the runs), their ratio, peak memory of both, histories a second.
"""
import argparse
import os
import subprocess
import sys
import tempfile
import time

ROOT = os.path.dirname(os.path.dirname(os.path.abspath(__file__)))
PROGRAM = os.path.join(ROOT, "crates", "trio_main", "out", "trio_main")


def chains(number):
    """The made input of a number: specification, history, and the same as an answer set program."""
    instants, rows = 4 + number % 29, 1 + (number // 29) % 4
    spec = [f"time {instants};"]
    spec += [f"item p{j} : bool;" for j in range(rows)]
    spec += [f"axiom A{j} : (Dist(true, 1) & p{j}) -> Futr(p{j}, 1);" for j in range(rows)]
    spec += [f"axiom B{j} : p{j} -> p{j + 1};" for j in range(rows - 1)]
    history = [f"p{j}: " + "? " * instants for j in range(rows)]
    program = [
        f"time(0..{instants - 1}). item(0..{rows - 1}).",
        "{p(J,T)} :- item(J), time(T).",
        ":- p(J,T), time(T+1), not p(J,T+1).",
        ":- p(J,T), item(J+1), not p(J+1,T).",
        "#show p/2.",
    ]
    return spec, history, program


def line():
    """Three messages on a line that passes each on after two instants; at most one is sent at an instant."""
    instants = 8
    spec = [
        f"time {instants};",
        "domain msg = {a, b, c};",
        "item sent(msg) : bool;",
        "item got(msg) : bool;",
        "axiom Pass : all m : msg (Dist(true, 2) -> (sent(m) <-> Dist(got(m), 2)));",
        "axiom Start : all m : msg (!Dist(true, -2) -> !got(m));",
        "axiom One : all m : msg (all n : msg (m != n -> !(sent(m) & sent(n))));",
    ]
    history = [f"{row}({message}): " + "? " * instants for row in ("sent", "got") for message in "abc"]
    program = [
        f"time(0..{instants - 1}). message(a;b;c).",
        "{sent(M,T); got(M,T)} :- message(M), time(T).",
        ":- message(M), time(T), time(T+2), sent(M,T), not got(M,T+2).",
        ":- message(M), time(T), time(T+2), not sent(M,T), got(M,T+2).",
        ":- message(M), time(T), not time(T-2), got(M,T).",
        ":- message(M), message(N), M != N, time(T), sent(M,T), sent(N,T).",
        "#show sent/2. #show got/2.",
    ]
    return spec, history, program


def trace():
    """A recorded trace of requests, work and acknowledgements: 256 instants, four rows, 24 unknown cells."""
    instants = 256
    spec = [
        f"time {instants};",
        "item request : bool;",
        "item busy : bool;",
        "item done : bool;",
        "item fault : bool;",
        "axiom Served : request -> WithinF_ei(done, 8);",
        "axiom Asked : done -> WithinP_ei(request, 8);",
        "axiom Works : done -> Lasted_ei(busy, 2);",
        "axiom Quiet : fault -> Lasts_ii(!request & !done, 4);",
    ]
    rows = {name: ["0"] * instants for name in ("request", "busy", "done", "fault")}
    for start in range(4, 240, 12):
        rows["request"][start] = "1"
        for instant in range(start + 1, start + 6):
            rows["busy"][instant] = "1"
        rows["done"][start + 5] = "1"
        rows["fault"][start + 7] = "1"
    for number, start in enumerate(range(4, 148, 12)):
        # a doubtful end of work, and a doubtful fault; most of them follow from the rest
        rows["done"][start + (4 if number % 4 == 0 else 5)] = "?"
        rows["fault"][start + (7 if number % 4 == 1 else 5)] = "?"
    history = [f"{name}: " + " ".join(values) for name, values in rows.items()]
    program = [f"time(0..{instants - 1})."]
    for name, values in rows.items():
        for instant, value in enumerate(values):
            if value == "1":
                program.append(f"h({name},{instant}).")
            elif value == "?":
                program.append(f"{{h({name},{instant})}}. open({name},{instant}).")
    program += [
        "served(T) :- time(T), h(done,T+D), D = 1..8.",
        "asked(T) :- time(T), h(request,T-D), D = 1..8.",
        ":- h(request,T), not served(T).",
        ":- h(done,T), not asked(T).",
        ":- h(done,T), D = 1..2, time(T-D), not h(busy,T-D).",
        ":- h(fault,T), D = 0..4, h(request,T+D).",
        ":- h(fault,T), D = 0..4, h(done,T+D).",
        "show(I,T) :- open(I,T), h(I,T).",
        "#show show/2.",
    ]
    return spec, history, program


def free(unknown):
    """Bools of which nothing is said: every assignment is a history, so that one more cell makes twice as many."""
    spec = [f"time {unknown};", "item p : bool;", "axiom A : p -> p;"]
    history = ["p: " + "? " * unknown]
    return spec, history, [f"time(0..{unknown - 1}).", "{p(T)} :- time(T).", "#show p/1."]


INPUTS = {str(number): (lambda number=number: chains(number)) for number in (57, 99, 86, 115)}
INPUTS["line"] = line
INPUTS["trace"] = trace
INPUTS["free15"] = lambda: free(15)
INPUTS["free16"] = lambda: free(16)


def timed(command, out):
    """Seconds and peak memory in MB of a command whose output goes to a file. GNU time measures the memory: this script's own would count."""
    with open(out, "wb") as sink, tempfile.NamedTemporaryFile("r") as peak:
        start = time.perf_counter()
        subprocess.run(["/usr/bin/time", "--quiet", "-f", "%M", "-o", peak.name, *command], stdout=sink, check=False)
        return time.perf_counter() - start, int(peak.read()) / 1024


def measured(name, runs, folder):
    spec, history, program = INPUTS[name]()
    paths = {key: os.path.join(folder, key) for key in ("spec.trio", "given.history", "same.lp", "trio.out", "clingo.out")}
    for key, lines in (("spec.trio", spec), ("given.history", history), ("same.lp", program)):
        with open(paths[key], "w") as file:
            file.write("\n".join(lines) + "\n")
    ours = [timed([PROGRAM, "complete", paths["spec.trio"], paths["given.history"]], paths["trio.out"]) for _ in range(runs)]
    theirs = [timed(["clingo", "0", "-V1", paths["same.lp"]], paths["clingo.out"]) for _ in range(runs)]
    with open(paths["trio.out"]) as file:
        listed = int(file.readline().split()[1])
    with open(paths["clingo.out"]) as file:
        answers = sum(1 for row in file if row.startswith("Answer"))
    if listed != answers:
        sys.exit(f"{name}: {listed} histories by trio, {answers} answer sets by clingo")
    seconds, memory = min(ours)
    other, other_memory = min(theirs)
    print(
        f"{name:>6} {listed:>8} histories  trio {seconds:7.3f} s {memory:6.1f} MB  clingo {other:7.3f} s {other_memory:6.1f} MB"
        f"  ratio {seconds / other:6.2f}  {listed / seconds:10.0f} histories/s"
    )


def main():
    words = argparse.ArgumentParser(description=__doc__, formatter_class=argparse.RawDescriptionHelpFormatter)
    words.add_argument("--runs", type=int, default=3)
    words.add_argument("names", nargs="*", metavar="NAME", help="; ".join(INPUTS))
    asked = words.parse_args()
    subprocess.run([os.path.join(ROOT, "trio")], stdout=subprocess.DEVNULL, check=False)  # builds the program where it is not fresh
    with tempfile.TemporaryDirectory() as folder:
        for name in asked.names or INPUTS:
            measured(name, asked.runs, folder)


if __name__ == "__main__":
    main()
