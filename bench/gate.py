#!/usr/bin/env python3
"""Processor minutes of `rt ci`, crate by crate: its proof, its tests, its must-fail edits and the proof that they begin with.

    python3 bench/gate.py [WORD..]

Runs `rt ci WORD..` at the top of the repository (`--anew` proves all from nothing), looks at its processes twice a
second, and prints what `rt ci` prints, a table by crate, and the edits that took longest. The exit status is that of
`rt ci`. A process counts for the crate that it names. What `rt ci` itself takes, and the compilers of LLVM, stand in a row of
their own. Standard library only; Linux.
"""
import os
import re
import subprocess
import sys
import time

TICKS = os.sysconf("SC_CLK_TCK")
CRATE = re.compile(r"--crate-name\0([a-z0-9_]+)\0")
# what a check of edits begins with: what the crate as it stands proved, or the number of an edit in the order of names
OVER = re.compile(r"--incremental\0[^\0]*/(seed|\d+)\0")
KINDS = ("proof", "tests", "base", "edits")
LONG = 15


def read(path):
    try:
        with open(path, "rb") as file:
            return file.read().decode(errors="replace")
    except OSError:
        return ""


def parents():
    """The processes that run, each with the one that started it and the seconds of a processor that it has taken."""
    found = {}
    for pid in filter(str.isdigit, os.listdir("/proc")):
        stat = read(f"/proc/{pid}/stat")
        if stat:
            fields = stat[stat.rindex(")") + 2 :].split()
            found[int(pid)] = (int(fields[1]), int(fields[19]), (int(fields[11]) + int(fields[12])) / TICKS)
    return found


def below(root, found):
    children = {}
    for pid, (parent, _, _) in found.items():
        children.setdefault(parent, []).append(pid)
    todo, all_of = [root], []
    while todo:
        pid = todo.pop()
        all_of.append(pid)
        todo += children.get(pid, [])
    return all_of


def work_of(pid):
    """The crate of a process, the kind of its work, and the number of the edit that it tries; or None."""
    words = read(f"/proc/{pid}/cmdline")
    crate = CRATE.search(words)
    if not crate:
        return None
    try:
        here = os.readlink(f"/proc/{pid}/cwd")
    except OSError:
        here = ""
    over = OVER.search(words)
    if over and over.group(1) == "seed":
        return crate.group(1), "base", None
    if over or "edit" in here:
        return crate.group(1), "edits", int(over.group(1)) if over else None
    return crate.group(1), "tests" if "\0--test\0" in words else "proof", None


def name_of(crate, number):
    """The name of an edit, by its number in the order of names."""
    names = sorted(name for name in os.listdir(f"crates/{crate}/must-fail") if name.endswith(".edit"))
    return names[number] if number < len(names) else str(number)


def main():
    run = subprocess.Popen(["rt", "ci", *sys.argv[1:]])
    began, taken, whose = time.monotonic(), {}, {}
    while run.poll() is None:
        found = parents()
        for pid in below(run.pid, found):
            if pid in found:
                key = (pid, found[pid][1])
                whose[key] = whose.get(key) or work_of(pid)
                taken[key] = max(taken.get(key, 0), found[pid][2])
        time.sleep(0.5)
    minutes, tried = {}, {}
    for key, seconds in taken.items():
        crate, kind, number = whose.get(key) or ("(rt, compilers)", "proof", None)
        minutes.setdefault(crate, dict.fromkeys(KINDS, 0))[kind] += seconds / 60
        if number is not None:
            tried[crate, number] = tried.get((crate, number), 0) + seconds
    print("\n| Crate | Proof | Tests | Edits' base | Edits | All |\n|---|---|---|---|---|---|")
    rows = [*sorted(minutes.items()), ("all", {kind: sum(it[kind] for it in minutes.values()) for kind in KINDS})]
    for crate, row in rows:
        print(f"| {crate} | " + " | ".join(f"{row[kind]:.1f}" for kind in KINDS) + f" | {sum(row.values()):.1f} |")
    long = sorted(((seconds, crate, number) for (crate, number), seconds in tried.items() if seconds > LONG), reverse=True)
    print(f"\nedits over {LONG} seconds: {len(long)} of {len(tried)}")
    for seconds, crate, number in long:
        print(f"  {seconds:.0f} {crate}/{name_of(crate, number)}")
    print(f"\n{(time.monotonic() - began) / 60:.1f} minutes by the clock")
    return run.returncode


if __name__ == "__main__":
    sys.exit(main())
