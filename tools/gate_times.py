#!/usr/bin/env python3
"""Measures what the gate does for each crate, and fills the table of docs/GATE.md.

    tools/gate_times.py [--write] [NAME..]

For each crate named, or each crate of crates.txt, lowest first: processor seconds (user and system, all processes
together) and the memory of the largest process, of three steps, each from nothing at one job:

    library   rt check
    tests     rt test: the crate is proved with its tests, which are built and run
    edits     rt must-fail --anew: the crate is proved once more, then each edit is tried

It works on what is committed, in a clone of its own that is removed afterwards. The libraries below a crate are built
before its clock starts. Rows are printed; --write also puts them into docs/GATE.md. A step that fails is shown as
FAILED and ends the run with status 1. Measure with nothing beside it: a busy machine adds a tenth and more.
"""
import os
import re
import shutil
import subprocess
import sys
import tempfile

TOP = os.path.dirname(os.path.dirname(os.path.realpath(__file__)))
TABLE = os.path.join(TOP, "docs", "GATE.md")


def crates_listed(text):
    """Returns the crates that each crate of crates.txt stands on, by its name."""
    lines = [line.partition("#")[0].partition(":") for line in text.split("\n")]
    return {name.split()[0]: below.split() for name, _, below in lines if name.strip()}


def lowest_first(crates):
    """Returns the names in an order in which each stands behind those that it stands on."""
    order = []

    def visit(name):
        if name in crates and name not in order:
            for below in crates[name]:
                visit(below)
            order.append(name)

    for name in crates:
        visit(name)
    return order


def measured(folder, *words):
    """Runs a command and returns whether it succeeded, its processor seconds, and the megabytes of its largest process."""
    started = subprocess.Popen(words, cwd=folder, stdin=subprocess.DEVNULL, stdout=subprocess.DEVNULL, stderr=subprocess.DEVNULL)
    _, status, used = os.wait4(started.pid, 0)
    started.returncode = status
    return status == 0, used.ru_utime + used.ru_stime, used.ru_maxrss / 1024


def forget(folder):
    """Has the next check of a crate begin from nothing: rt looks for no other checkout's work where the folder of its own is there."""
    kept = os.path.join(folder, "out", "incremental")
    shutil.rmtree(kept, ignore_errors=True)
    os.makedirs(kept)


def marked(folder):
    """Appends a comment to a crate's root file, so that no other checkout has proved the same text, and returns the file with what it held."""
    at = os.path.join(folder, "src", "lib.rt")
    root = at if os.path.exists(at) else os.path.join(folder, "src", "main.rt")
    with open(root, encoding="utf-8") as source:
        held = source.read()
    with open(root, "a", encoding="utf-8") as source:
        source.write(f"// Measured in {folder}.\n")
    return root, held


def counted(folder):
    """Returns the number of a crate's tests, of its edits that are tried, and of those that are only read."""
    tests = 0
    for at, _, files in os.walk(os.path.join(folder, "src")):
        for file in files:
            with open(os.path.join(at, file), encoding="utf-8") as source:
                tests += len(re.findall(r"^\s*#\[test\]", source.read(), re.M))
    beside = os.path.join(folder, "must-fail")
    edits = os.listdir(beside) if os.path.isdir(beside) else []
    return tests, sum(it.endswith(".edit") for it in edits), sum(it.endswith(".md") for it in edits)


def row(top, name):
    """Measures a crate, and returns its row and whether all went well."""
    folder = os.path.join(top, "crates", name)
    tests, tried, read = counted(folder)
    steps = [(folder, "rt", "check", "--jobs", "1")]
    steps += [(folder, "rt", "test", "--jobs", "1")] if tests else [None]
    steps += [(top, "rt", "must-fail", name, "--anew")] if tried else [None]
    seconds, memory, well = [], 0, True
    root, held = marked(folder)
    for step in steps:
        if step is None:
            seconds.append("")
            continue
        forget(folder)
        passed, spent, megabytes = measured(*step)
        seconds.append(f"{spent:.0f}" if passed else "FAILED")
        memory, well = max(memory, megabytes), well and passed
    with open(root, "w", encoding="utf-8") as source:
        source.write(held)
    cells = [f"`{name}`", seconds[0], tests or "", seconds[1], tried or "", seconds[2], read or "", f"{memory:.0f}"]
    return "| " + " | ".join(str(it) for it in cells) + " |", well


def write(name, line):
    """Puts a crate's row into the table, in place of the row that it had or behind the last one."""
    with open(TABLE, encoding="utf-8") as page:
        lines = page.read().split("\n")
    own = [at for at, it in enumerate(lines) if it.startswith(f"| `{name}` |")]
    rows = [at for at, it in enumerate(lines) if it.startswith("| `")]
    if own:
        lines[own[0]] = line
    else:
        lines.insert(rows[-1] + 1, line)
    with open(TABLE, "w", encoding="utf-8") as page:
        page.write("\n".join(lines))


def main(words):
    writes, names = "--write" in words, [it for it in words if it != "--write"]
    with open(os.path.join(TOP, "crates.txt"), encoding="utf-8") as listed:
        crates = crates_listed(listed.read())
    unknown = [it for it in names if it not in crates]
    if unknown:
        sys.exit(f"gate_times: crates.txt lists no {unknown[0]}")
    all_well = True
    with tempfile.TemporaryDirectory(prefix="gate-times-") as room:
        top = os.path.join(room, "clone")
        subprocess.run(["git", "clone", "-q", TOP, top], check=True)
        for name in [it for it in lowest_first(crates) if not names or it in names]:
            for below in [it for it in crates[name] if it in crates]:
                folder = os.path.join(top, "crates", below)
                subprocess.run(["rt", "lib"], cwd=folder, stdin=subprocess.DEVNULL, stdout=subprocess.DEVNULL, check=True)
            line, well = row(top, name)
            print(line, flush=True)
            all_well = all_well and well
            if writes:
                write(name, line)
    return 0 if all_well else 1


if __name__ == "__main__":
    sys.exit(main(sys.argv[1:]))
