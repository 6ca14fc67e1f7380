#!/usr/bin/env python3
"""Runs the whole gate from nothing, or the command that is given, and prints what each crate cost it.

usage: bench/gate_cost.py [COMMAND..]      COMMAND is `rt ci --anew` at the repository's top unless given

While the command runs, the processor time of each prover below it is read from /proc some times a second: of the
crate's proof, of its tests, of the check that its edits begin with, and of its edits. The time of a prover
between its last reading and its end is missed (a quarter of a second at most), so the sums are a little low. The
table is written to the standard error, so that the last line of the standard output stays the command's. It exits
with the command's status.
"""
import os
import subprocess
import sys
import time

TICKS = os.sysconf("SC_CLK_TCK")
PAUSE = 0.25
KINDS = ("proof", "tests", "seed", "edits")


def words_of(process):
    """The words of a process, or none where it is gone."""
    try:
        with open(f"/proc/{process}/cmdline", "rb") as file:
            return file.read().decode(errors="replace").split("\0")
    except OSError:
        return []


def state_of(process):
    """The parent of a process, its own processor seconds so far and when it began, or None where it is gone."""
    try:
        with open(f"/proc/{process}/stat", encoding="utf-8", errors="replace") as file:
            fields = file.read().rsplit(")", 1)[1].split()
    except (OSError, IndexError):
        return None
    return fields[1], (int(fields[11]) + int(fields[12])) / TICKS, fields[19]


def part_of(words):
    """The crate and the part of the gate that a prover of these words works for, if they are a prover's."""
    if not words or os.path.basename(words[0]) != "rattle" or "--crate-name" not in words:
        return None
    crate = words[words.index("--crate-name") + 1]
    if "--incremental" in words:
        over = os.path.basename(words[words.index("--incremental") + 1])
        return crate, "seed" if over == "seed" else "edits"
    return crate, "tests" if "--test" in words else "proof"


def read(run, parts, spent):
    """Reads the time of each prover that stands below the run, and of the processes that it has started itself."""
    states = {it: state for it in filter(str.isdigit, os.listdir("/proc")) if (state := state_of(it))}

    def part_above(process):
        """The part that a process, or one above it, works for; None where the run is none of these."""
        found = None
        while process in states and process != run:
            found = found or part_of(words_of(process))
            process = states[process][0]
        return found if process == run else None

    for process, (_, seconds, begun) in states.items():
        # A number is given again to a later process, which began at another time.
        part = parts.get((process, begun)) or part_above(process)
        if part:
            parts[process, begun] = part
            spent[process, begun] = part, seconds


def table(spent, wall):
    """The lines of the table: each crate's seconds, the dearest first, and their sums."""
    rows = {}
    for (crate, kind), seconds in spent.values():
        rows.setdefault(crate, dict.fromkeys(KINDS, 0.0))[kind] += seconds
    ranked = sorted(rows.items(), key=lambda row: -sum(row[1].values()))
    ranked.append(("all", {kind: sum(row[kind] for row in rows.values()) for kind in KINDS}))
    yield f"{'crate':<16}" + "".join(f"{kind:>8}" for kind in (*KINDS, "sum")) + "   processor seconds"
    for crate, row in ranked:
        numbers = [*row.values(), sum(row.values())]
        yield f"{crate:<16}" + "".join(f"{number:8.0f}" for number in numbers)
    minutes = sum(ranked[-1][1].values()) / 60
    yield f"{minutes:.0f} processor minutes, {wall / 60:.0f} minutes of wall time on {os.cpu_count()} processors"


def main():
    command = sys.argv[1:] or ["rt", "ci", "--anew"]
    if not sys.argv[1:]:
        os.chdir(os.path.join(os.path.dirname(os.path.realpath(__file__)), ".."))
    parts, spent, begun = {}, {}, time.monotonic()
    run = subprocess.Popen(command)
    while run.poll() is None:
        read(str(run.pid), parts, spent)
        time.sleep(PAUSE)
    for line in table(spent, time.monotonic() - begun):
        print(line, file=sys.stderr)
    return run.returncode


if __name__ == "__main__":
    sys.exit(main())
