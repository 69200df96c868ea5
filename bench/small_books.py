#!/usr/bin/env python3
"""Plans small books by chance that branch, and tells how long the search takes on them.

    small_books.py FIRST LAST [PLAIN]      plans the books of the seeds FIRST to LAST
    small_books.py --write SEED FOLDER     writes the tables of one

All activities begin and end at one airport, half of them may be flown by one type alone, rates are 0, and what a wait costs goes up
and down from band to band: so plans differ by their waits, and roots leave gaps. A book has 11 or 12 activities and 4 aircraft.
bin/tailplan plans them, or PLAIN, the program of bench/plain_rust.
Told are the seconds of a processor in the middle, at nine of ten and at most, and each book that takes more than one.
"""

import os
import resource
import subprocess
import sys
import tempfile

from make_tables import Dice

LIMIT = 120
SLOW = 1.0
HERE = os.path.dirname(os.path.abspath(__file__))


def moment_of(minutes):
    """The text of a moment, in minutes from the first day."""
    return f"2025-03-{3 + minutes // 1440:02}T{minutes // 60 % 24:02}:{minutes % 60:02}"


AIRCRAFT = 4


def timetable_of(dice):
    """Activities at one airport, half an hour to an hour and a quarter long."""
    activities = dice.within(11, 12)
    rows = ["id,kind,from,to,start,end,types,tags,tail,resets"]
    last = 15 * 45 * activities // AIRCRAFT // 10
    for a in range(activities):
        start = 15 * dice.within(0, last // 15 + 12)
        end = start + 15 * dice.within(2, 5)
        kind = "ground" if dice.chance(20) else "flight"
        types = ("P", "Q", "", "")[dice.within(0, 3)]
        rows.append(f"F{a},{kind},ARN,ARN,{moment_of(start)},{moment_of(end)},{types},,,")
    return rows


def fleet_of(dice):
    """Aircraft of two types, of which some cost an amount once they fly."""
    rows = ["tail,type,at,ready,fixed,tags,avoid,carry"]
    for k in range(AIRCRAFT):
        fixed = dice.within(0, 9) if dice.chance(50) else 0
        rows.append(f"A{k},{'PQ'[2 * k // AIRCRAFT]},ARN,{moment_of(0)},{fixed},,,")
    return rows


def rules_of(dice):
    """Two types, an airport, and bands of waits."""
    rows = []
    for name in "PQ":
        rows += ["[[type]]", f'name = "{name}"', "rate = 0", f"turn = {15 * dice.within(0, 2)}"]
    rows += ["[[airport]]", 'name = "ARN"', "offset = 0", "turn = 0"]
    for upto in (30, 60, 10000000):
        rows += ["[[band]]", f"upto = {upto}", f"cost = {dice.within(0, 99)}"]
    return rows


def write(seed, folder):
    """Writes the three tables of a seed."""
    dice = Dice(seed)
    tables = {
        "timetable.csv": timetable_of(dice),
        "fleet.csv": fleet_of(dice),
        "rules.toml": rules_of(dice),
    }
    os.makedirs(folder, exist_ok=True)
    for name, rows in tables.items():
        with open(os.path.join(folder, name), "w", encoding="utf-8") as file:
            file.write("\n".join(rows) + "\n")


def words_of(folder, plain):
    """The words that plan the tables of a folder."""
    if plain:
        return [plain, folder]
    tables = [os.path.join(folder, name) for name in ("timetable.csv", "fleet.csv", "rules.toml")]
    return [os.path.join(HERE, "..", "bin", "tailplan"), *tables]


def seconds_of(words):
    """The seconds of a processor of one run."""
    before = resource.getrusage(resource.RUSAGE_CHILDREN)
    try:
        subprocess.run(words, stdout=subprocess.DEVNULL, stderr=subprocess.DEVNULL, timeout=LIMIT, check=False)
    except subprocess.TimeoutExpired:
        pass
    after = resource.getrusage(resource.RUSAGE_CHILDREN)
    return after.ru_utime + after.ru_stime - before.ru_utime - before.ru_stime


def time_all(first, last, plain):
    """Plans the books, and prints what it took."""
    os.environ["TAILPLAN_QUIET"] = "1"
    times = []
    with tempfile.TemporaryDirectory() as work:
        for seed in range(first, last + 1):
            write(seed, work)
            took = seconds_of(words_of(work, plain))
            times.append(took)
            if took > SLOW:
                print(f"seed {seed}: {took:.2f} s", flush=True)
    times.sort()
    count = len(times)
    print(f"{count} books: {times[count // 2]:.3f} s in the middle, {times[count * 9 // 10]:.3f} at nine of ten, {times[-1]:.3f} at most")


def main(words):
    if len(words) == 3 and words[0] == "--write":
        write(int(words[1]), words[2])
    elif len(words) in (2, 3) and words[0].isdigit() and words[1].isdigit():
        time_all(int(words[0]), int(words[1]), words[2] if len(words) == 3 else None)
    else:
        sys.exit("usage: small_books.py FIRST LAST [PLAIN] | --write SEED FOLDER")


if __name__ == "__main__":
    main(sys.argv[1:])
