#!/usr/bin/env python3
"""Makes small ELF files whose debug information is as costly as it can be, and times `dbgd sources` on them.

    bench/hostile_sources.py [PROGRAM]          PROGRAM is ./dbgd of the repository's top unless given
    bench/hostile_sources.py --make FOLDER      writes the files into FOLDER and runs nothing

bases     10,000 units over one line table of 40,000 files, each unit with another place in .debug_str_offsets
codes     10,000 units over 40,000 abbreviations, each unit with the last one's code
folders   units over one table, each unit with another folder: there are as many paths as units times files
lists     the same, just below the limit of a list, with paths of 8, of 157, and of 4,090 bytes

`bases` and `codes` have to end within a second each, and at twice the size within two and a half times that: the least
time of ten runs each, since they take some hundredths of a second. The large `folders` name more than a list may take and
have to end with 6; the others have to end with 0, and none may pass 1.5 GB, by a scan neither. It stands outside the gate,
since the time of a busy machine says nothing.
"""
import os
import struct
import subprocess
import sys
import tempfile
import time

MEMORY = 1_500_000_000


def uleb(number):
    out = bytearray()
    while True:
        low, number = number & 0x7F, number >> 7
        out.append(low | (0x80 if number else 0))
        if not number:
            return bytes(out)


def elf(sections):
    """A 64-bit little-endian file with a build-id note and these sections."""
    note = struct.pack("<III", 4, 20, 3) + b"GNU\0" + bytes(range(20))
    parts = [("", 0, b""), (".note.gnu.build-id", 7, note)] + [(name, 1, data) for name, data in sections]
    names = b""
    places = []
    for name, _, _ in parts + [(".shstrtab", 3, b"")]:
        places.append(len(names))
        names += name.encode() + b"\0"
    parts.append((".shstrtab", 3, names))
    body = b""
    rows = []
    for (name, kind, data), at in zip(parts, places):
        while len(body) % 4:
            body += b"\0"
        align = 0 if kind == 0 else 4 if kind == 7 else 1
        rows.append(struct.pack("<IIQQQQIIQQ", at, kind, 0, 0, 64 + len(body) if kind else 0, len(data), 0, 0, align, 0))
        body += data
    while len(body) % 8:
        body += b"\0"
    head = b"\x7fELF\x02\x01\x01" + bytes(9)
    head += struct.pack("<HHIQQQIHHHHHH", 2, 62, 1, 0, 0, 64 + len(body), 0, 64, 0, 0, 64, len(rows), len(rows) - 1)
    return head + body + b"".join(rows)


def table(names, folder=b"/"):
    """A line table of these files, all in directory 0, whose names stand in place."""
    lists = b"\x01" + uleb(1) + uleb(8) + uleb(1) + folder + b"\0"
    lists += b"\x01" + uleb(1) + uleb(8) + uleb(len(names)) + b"".join(name + b"\0" for name in names)
    behind = struct.pack("<BBBbBB", 1, 1, 1, -5, 14, 1) + lists
    rest = struct.pack("<HBBI", 5, 8, 0, len(behind)) + behind
    return struct.pack("<I", len(rest)) + rest


def unit(values, abbrevs=0):
    rest = struct.pack("<HBBI", 5, 1, 8, abbrevs) + values
    return struct.pack("<I", len(rest)) + rest


def name_of(number):
    letters = b"0123456789abcdefghijklmnopqrstuvwxyz"
    out = b""
    while True:
        out += letters[number % 36 : number % 36 + 1]
        number //= 36
        if not number:
            return out


def bases(size):
    abbrev = b"\x01\x11\0\x72\x17\x10\x17\0\0\0"
    info = b"".join(unit(b"\x01" + struct.pack("<II", 8 + 4 * n, 0)) for n in range(10000 * size))
    line = table([name_of(n) for n in range(40000 * size)])
    return elf([(".debug_info", info), (".debug_abbrev", abbrev), (".debug_line", line), (".debug_str_offsets", bytes(8))])


def codes(size):
    count = 40000 * size
    abbrev = b"".join(uleb(n) + b"\x11\0\0\0" for n in range(1, count)) + uleb(count) + b"\x11\0\x10\x17\0\0\0"
    info = b"".join(unit(uleb(count) + struct.pack("<I", 0)) for n in range(10000 * size))
    return elf([(".debug_info", info), (".debug_abbrev", abbrev), (".debug_line", table([b"a"]))])


def folders(units, files, folder):
    """So many units over one table, whose directory 0 lies in the unit's folder."""
    abbrev = b"\x01\x11\0\x1b\x08\x10\x17\0\0\0"
    info = b"".join(unit(b"\x01" + folder + name_of(n) + b"\0" + struct.pack("<I", 0)) for n in range(units))
    line = table([name_of(n) for n in range(files)], b".")
    return elf([(".debug_info", info), (".debug_abbrev", abbrev), (".debug_line", line)])


FILES = {
    "bases": lambda: bases(1),
    "bases_twice": lambda: bases(2),
    "codes": lambda: codes(1),
    "codes_twice": lambda: codes(2),
    "folders_2500": lambda: folders(2500, 2500, b"/"),
    "folders_5000": lambda: folders(5000, 5000, b"/"),
    "folders_20000": lambda: folders(20000, 20000, b"/"),
    "folders_long": lambda: folders(200, 20000, b"/" + b"x" * 3900),
    "lists_short": lambda: folders(1790, 1790, b"/"),
    "lists_middle": lambda: folders(710, 710, b"/" + b"x" * 150),
    "lists_long": lambda: folders(32, 680, b"/" + b"x" * 4080),
}

# The files that are timed, and how often each of them is run.
TIMED = {"bases", "bases_twice", "codes", "codes_twice"}
RUNS = 10

# The files that have to end with 6.
GIVEN_UP = {"folders_2500", "folders_5000", "folders_20000", "folders_long"}


def run(words):
    """The seconds, the status and the most memory in bytes that a command takes."""
    began = time.monotonic()
    pid = os.posix_spawn(words[0], words, os.environ, file_actions=[(os.POSIX_SPAWN_OPEN, 1, "/dev/null", os.O_WRONLY, 0)])
    _, status, used = os.wait4(pid, 0)
    return time.monotonic() - began, os.waitstatus_to_exitcode(status), used.ru_maxrss * 1024


def made(folder):
    paths = {}
    for name, make in FILES.items():
        os.makedirs(os.path.join(folder, name), exist_ok=True)
        paths[name] = os.path.join(folder, name, "file")
        with open(paths[name], "wb") as out:
            out.write(make())
    return paths


def main():
    if sys.argv[1:2] == ["--make"] and len(sys.argv) == 3:
        made(sys.argv[2])
        return 0
    top = os.path.dirname(os.path.dirname(os.path.realpath(__file__)))
    program = os.path.realpath(sys.argv[1] if len(sys.argv) > 1 else os.path.join(top, "dbgd"))
    failed = 0
    with tempfile.TemporaryDirectory() as work:
        paths = made(work)
        took = {}
        for name, path in paths.items():
            runs = [run([program, "sources", path]) for _ in range(RUNS if name in TIMED else 1)]
            seconds, status, memory = min(runs)
            took[name] = seconds
            print(f"sources {name}: {os.path.getsize(path)} bytes, {seconds:.2f} s, status {status}, {memory >> 20} MB", flush=True)
            failed |= status != (6 if name in GIVEN_UP else 0) or memory > MEMORY
        for name in ("bases", "codes"):
            failed |= took[name] > 1.0 or took[name + "_twice"] > 2.5 * took[name]
        for name in sorted(name for name in paths if name.startswith(("folders", "lists"))):
            folder = os.path.dirname(paths[name])
            seconds, status, memory = run([program, "scan", "-d", os.path.join(work, name + ".db"), folder])
            print(f"scan {name}: {seconds:.2f} s, status {status}, {memory >> 20} MB", flush=True)
            failed |= status != (6 if name in GIVEN_UP else 0) or memory > MEMORY
    print("failed" if failed else "as it should be")
    return int(failed)


if __name__ == "__main__":
    sys.exit(main())
