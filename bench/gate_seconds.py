#!/usr/bin/env python3
"""Tells what a run of the gate costs: processor seconds of each crate's proofs, its tests and its must-fail edits.

usage: gate_seconds.py [FOLDER]

Start it beside the `rt ci` or `rt ci NAME` that runs at the top of the repository FOLDER, the working folder where none is
named. Twice a second it looks at the processes of the prover that this run has started, and once the run has ended, it prints
the table of docs/ARCHITECTURE.md and how long it watched. What a process took in its last half second is not seen: less than a
hundredth of all.
"""
import collections
import os
import sys
import time

TICKS = os.sysconf("SC_CLK_TCK")
PAUSE = 0.5
QUIET = 20.0


def words_of(pid):
    """The command line of a process."""
    with open(f"/proc/{pid}/cmdline") as file:
        return file.read().split("\0")


def seconds_of(pid):
    """The parent of a process, its processor seconds with those of its ended children, and when it started."""
    with open(f"/proc/{pid}/stat") as file:
        fields = file.read().rpartition(")")[2].split()
    return fields[1], sum(map(int, fields[11:15])) / TICKS, fields[19]


def folder_of(pid):
    """The folder that a process was started in, by its environment: `rt ci NAME` goes on in a copy."""
    with open(f"/proc/{pid}/environ", "rb") as file:
        named = [entry[4:] for entry in file.read().split(b"\0") if entry.startswith(b"PWD=")]
    return os.path.realpath(os.fsdecode(named[0])) if named else None


def is_run(pid, top):
    """Whether the process is `rt ci` at the top of this repository, for all crates or for some."""
    words = [os.path.basename(word) for word in words_of(pid)]
    return "rt" in words and "ci" in words and top in (os.path.realpath(f"/proc/{pid}/cwd"), folder_of(pid))


def stands_under(pid, top):
    """Whether the run of this repository has started the process, itself or by one that it started."""
    while pid not in ("0", "1"):
        if is_run(pid, top):
            return True
        pid = seconds_of(pid)[0]
    return False


def kind_of(pid, words):
    """What a call of the prover is for: proofs, tests or edits. With the edits counts the check that all of a crate begin with."""
    if "--incremental" in words or "/rt-edit-" in os.path.realpath(f"/proc/{pid}/cwd"):
        return "edits"
    return "tests" if "--test" in words else "proofs"


def look(seen, top):
    """Notes what each call of the prover has taken so far, and answers whether there was one."""
    some = False
    for pid in filter(str.isdigit, os.listdir("/proc")):
        try:
            words = words_of(pid)
            if os.path.basename(words[0]) != "rattle" or "--crate-name" not in words or not stands_under(pid, top):
                continue
            _, taken, start = seconds_of(pid)
            kind = kind_of(pid, words)
        except (OSError, IndexError, ValueError):
            continue
        some = True
        seen[pid, start] = (words[words.index("--crate-name") + 1], kind, taken)
    return some


def edits_of(top, crate):
    """How many must-fail edits a crate has."""
    folder = f"{top}/crates/{crate}/must-fail"
    return len([name for name in os.listdir(folder) if name.endswith(".edit")]) if os.path.isdir(folder) else 0


def table(seen, top):
    """The lines of the table: a crate each, in the order in which they were met, and their sums."""
    rows = collections.defaultdict(collections.Counter)
    for crate, kind, taken in seen.values():
        rows[crate][kind] += taken
    for crate, row in rows.items():
        row["tried"] = edits_of(top, crate)
    rows["all"] = sum(rows.values(), collections.Counter())
    yield "| crate | proofs | tests | edits | how many edits |"
    yield "|---|---|---|---|---|"
    for crate, row in rows.items():
        name = crate if crate == "all" else f"`{crate}`"
        yield f"| {name} | {row['proofs']:.0f} | {row['tests']:.0f} | {row['edits']:.0f} | {row['tried']} |"
    yield f"in all {sum(taken for _, _, taken in seen.values()):.0f} processor seconds"


def main():
    top = os.path.realpath(sys.argv[1] if len(sys.argv) > 1 else ".")
    seen = {}
    began = last = time.monotonic()
    while not seen or time.monotonic() - last < QUIET:
        if look(seen, top):
            last = time.monotonic()
        time.sleep(PAUSE)
    print("\n".join(table(seen, top)))
    print(f"watched for {(last - began) / 60:.1f} minutes")


if __name__ == "__main__":
    main()
