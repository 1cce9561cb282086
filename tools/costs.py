#!/usr/bin/env python3
"""Prints what the checks of a run of `rt ci` took together, and the slowest of them, in seconds of processor time, since checks
run beside one another: run it beside, and end it by SIGTERM.

It looks a few times a second at the processes of the prover that work for this checkout. One in a crate's folder proves the
crate; one in a copy tries an edit, which is known by what stands in the copy, or begins or ends the tries of a crate's edits.
"""

import os
import re
import signal
import sys
import time
from collections import defaultdict

ROOT = os.path.dirname(os.path.dirname(os.path.realpath(__file__)))
TICK = os.sysconf("SC_CLK_TCK")
SHOWN = 12
OTHER = "before and after its edits"


def read(path):
    with open(path, encoding="utf-8", errors="replace") as file:
        return file.read()


def edits_of(crate):
    """Yields the edits of a crate: the name, and the text of each file with the edit."""
    folder = f"{ROOT}/crates/{crate}"
    names = os.listdir(f"{folder}/must-fail") if os.path.isdir(f"{folder}/must-fail") else []
    for name in sorted(names):
        texts, path, old = {}, "", None
        for line in read(f"{folder}/must-fail/{name}").splitlines():
            if line.startswith("file: "):
                path = line.removeprefix("file: ")
                texts.setdefault(path, read(f"{folder}/{path}"))
            elif line.startswith("old: "):
                old = line.removeprefix("old: ")
            elif line.startswith("new:") and old is not None:
                texts[path] = texts[path].replace(old, line.removeprefix("new:").removeprefix(" "), 1)
        yield name.removesuffix(".edit"), texts


def work_of(crate, folder):
    """Says what is done in the folder, or nothing if it is not for this checkout."""
    if folder == f"{ROOT}/crates/{crate}":
        return "proof"
    copy = re.fullmatch(r"rt-edit-(\d+)-\w+", os.path.basename(folder))
    if not copy or os.readlink(f"/proc/{copy[1]}/cwd") != ROOT:
        return None
    for name, texts in edits_of(crate):
        if all(read(f"{folder}/{path}") == text for path, text in texts.items()):
            return name
    return OTHER


def processor_seconds(pid):
    fields = read(f"/proc/{pid}/stat").rpartition(")")[2].split()
    return sum(map(int, fields[11:15])) / TICK


def look(known, costs):
    """Adds what each process of the prover took since the last look."""
    for pid in filter(str.isdigit, os.listdir("/proc")):
        try:
            if read(f"/proc/{pid}/comm").strip() != "rattle":
                continue
            seconds = processor_seconds(pid)
            if pid not in known or known[pid][1] > seconds:
                words = read(f"/proc/{pid}/cmdline").split("\0")
                crate = words[words.index("--crate-name") + 1]
                known[pid] = [(crate, work_of(crate, os.readlink(f"/proc/{pid}/cwd"))), 0]
            what, before = known[pid]
            costs[what] += seconds - before
            known[pid][1] = seconds
        except (OSError, ValueError, IndexError):
            continue


def show(title, costs):
    print(f"gate: {title}: {sum(costs.values()):.0f} s of processor time, the slowest:")
    for what, seconds in sorted(costs.items(), key=lambda it: -it[1])[:SHOWN]:
        print(f"{seconds:6.0f} s  {what}")


def main():
    known, costs, ended = {}, defaultdict(float), []
    signal.signal(signal.SIGTERM, lambda *_: ended.append(True))
    while not ended:
        look(known, costs)
        time.sleep(0.3)
    costs = {what: seconds for what, seconds in costs.items() if what[1]}
    show("proofs", {crate: seconds for (crate, work), seconds in costs.items() if work == "proof"})
    show("edits", {f"{crate}/{work}": seconds for (crate, work), seconds in costs.items() if work not in ("proof", OTHER)})
    show("checks before and after the edits of a crate", {crate: seconds for (crate, work), seconds in costs.items() if work == OTHER})


main()
