#!/usr/bin/env python3
"""Times the planner on tables of both makers: for each kind and size the seconds of a processor in the middle and at most.

    time_kinds.py FIRST LAST SIZE [KIND ..]

Tables of the seeds FIRST to LAST are made and planned, one after the other. SIZE is ACTIVITIESxAIRCRAFT, as 250x12. KINDS are
those of make_tables.py and other_tables.py, all where none is named. LIMIT chooses another time than 60 seconds, PLAIN the program
of bench/plain_rust in place of bin/tailplan, NODES a limit of nodes. A run that has no end counts with the limit, and how many those
are is told, as is which first words were printed how often.
"""

import collections
import os
import resource
import statistics
import subprocess
import sys
import tempfile

HERE = os.path.dirname(os.path.abspath(__file__))
MAKERS = {
    "make_tables.py": ("plain", "mix", "tight", "band", "full", "count", "place"),
    "other_tables.py": (
        "twohubs", "chains", "longlegs", "idle", "days", "fleetlandings", "typelandings", "fleethours", "typehours", "moment",
        "third", "between", "unreached", "overlap", "curfew",
    ),
}
TABLES = ("timetable.csv", "fleet.csv", "rules.toml")


def words_of(folder):
    """The words that plan the tables of a folder."""
    nodes = ["--nodes", os.environ["NODES"]] if "NODES" in os.environ else []
    if "PLAIN" in os.environ:
        return [os.environ["PLAIN"], folder, *nodes]
    return [os.path.join(HERE, "..", "bin", "tailplan"), *(os.path.join(folder, name) for name in TABLES), *nodes]


def time_one(folder, limit):
    """The seconds of a processor of one run, and the first word that it printed, nothing where it had no end."""
    before = resource.getrusage(resource.RUSAGE_CHILDREN)
    try:
        run = subprocess.run(words_of(folder), stdout=subprocess.PIPE, stderr=subprocess.DEVNULL, timeout=limit, check=False)
        printed = run.stdout.decode().split()
        word = printed[0] if printed else f"status {run.returncode}"
    except subprocess.TimeoutExpired:
        word = "no end"
    after = resource.getrusage(resource.RUSAGE_CHILDREN)
    return after.ru_utime + after.ru_stime - before.ru_utime - before.ru_stime, word


def time_kind(maker, kind, size, seeds, limit):
    """Plans the tables of a kind, and prints a row."""
    activities, aircraft = size.split("x")
    seconds, words = [], collections.Counter()
    for seed in seeds:
        with tempfile.TemporaryDirectory() as folder:
            made = [sys.executable, os.path.join(HERE, maker), kind, activities, aircraft, str(seed), folder]
            subprocess.run(made, check=True, stdout=subprocess.DEVNULL)
            took, word = time_one(folder, limit)
            seconds.append(took)
            words[word] += 1
    told = ", ".join(f"{count} {word}" for word, count in words.most_common())
    print(f"{kind} {size}: {statistics.median(seconds):.3f} in the middle, {max(seconds):.3f} at most; {told}", flush=True)


def main(words):
    if len(words) < 3:
        sys.exit("usage: time_kinds.py FIRST LAST ACTIVITIESxAIRCRAFT [KIND ..]")
    os.environ["TAILPLAN_QUIET"] = "1"
    seeds, size, chosen = range(int(words[0]), int(words[1]) + 1), words[2], words[3:]
    limit = float(os.environ.get("LIMIT", "60"))
    for maker, kinds in MAKERS.items():
        for kind in kinds:
            if not chosen or kind in chosen:
                time_kind(maker, kind, size, seeds, limit)


if __name__ == "__main__":
    main(sys.argv[1:])
