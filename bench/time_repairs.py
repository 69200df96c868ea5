#!/usr/bin/env python3
"""Times repairs: published plans of made tables are disrupted, and tailplan makes them legal again with the fewest moves.

    time_repairs.py FIRST LAST ACTIVITIESxAIRCRAFT [FAMILY ..]

Tables of make_tables.py of the seeds FIRST to LAST get a reserve aircraft for each hundred activities, like another of the fleet with
nothing on its counters. They are planned, and that plan is published. Then come four disruptions of each:

out        an aircraft stands for a day where it would have begun its first flight of that day
late       five flights are 90 minutes late, and so is their way back
cancelled  two flights there and back and the last flight of a route are cancelled, and a pair like the first is flown three hours later
closed     an airport is closed for two hours: what would leave or land there then does so at their end

PROGRAM is the planner, bin/tailplan where none is named, LIMIT another time than 60 seconds for a repair, and PLANNING another than 300
for the plan that is published. With NODES that plan is the one found within so many nodes. Told are, for each disruption, how many
repairs were proved least, how many have no legal plan, and how many had no end, with the seconds of a processor of the proved ones.
"""

import collections
import csv
import datetime
import os
import resource
import statistics
import subprocess
import sys
import tempfile

from make_tables import Dice

HERE = os.path.dirname(os.path.abspath(__file__))
FAMILIES = ("plain", "mix", "tight", "band", "full")
KINDS = ("out", "late", "cancelled", "closed")
FORM = "%Y-%m-%dT%H:%M"


class Tables:
    """The rows of a timetable and a fleet, with the rules' text."""

    def __init__(self, folder):
        self.activities = self.read(folder, "timetable.csv")
        self.fleet = self.read(folder, "fleet.csv")
        with open(os.path.join(folder, "rules.toml"), encoding="utf-8") as file:
            self.rules = file.read()

    @staticmethod
    def read(folder, name):
        with open(os.path.join(folder, name), encoding="utf-8", newline="") as file:
            return list(csv.DictReader(file))

    def write(self, folder):
        os.makedirs(folder, exist_ok=True)
        for name, rows in (("timetable.csv", self.activities), ("fleet.csv", self.fleet)):
            with open(os.path.join(folder, name), "w", encoding="utf-8", newline="") as file:
                writer = csv.DictWriter(file, rows[0].keys(), lineterminator="\n")
                writer.writeheader()
                writer.writerows(rows)
        with open(os.path.join(folder, "rules.toml"), "w", encoding="utf-8") as file:
            file.write(self.rules)

    def add_reserves(self):
        """A reserve for each hundred activities."""
        for number in range(max(1, len(self.activities) // 100)):
            like = self.fleet[number * 7 % len(self.fleet)]
            self.fleet.append({**like, "tail": f"RSV{number}", "carry": ""})

    def routes(self, plan):
        """The rows of each aircraft's route in a plan."""
        by_id = {row["id"]: row for row in self.activities}
        return {line.split(":")[0]: [by_id[a] for a in line.split(":")[1].split()] for line in plan.splitlines()[1:] if ":" in line}


def moved(row, minutes):
    """Sets a row's times so many minutes later."""
    for key in ("start", "end"):
        row[key] = (datetime.datetime.strptime(row[key], FORM) + datetime.timedelta(minutes=minutes)).strftime(FORM)


def minutes_from(one, other):
    """The minutes from one moment to another."""
    return int((datetime.datetime.strptime(other, FORM) - datetime.datetime.strptime(one, FORM)).total_seconds()) // 60


def way_back(routes, row):
    """What its aircraft flies next, if that leads back to where the flight came from."""
    for route in routes.values():
        for one, other in zip(route, route[1:]):
            if one is row and other["kind"] == "flight" and other["to"] == row["from"]:
                return other
    return None


def later(routes, row, minutes):
    """A flight is late, and its way back."""
    back = way_back(routes, row)
    moved(row, minutes)
    if back:
        moved(back, minutes)


def put_out(dice, tables, routes):
    tail = dice.pick(sorted(tail for tail, route in routes.items() if any(row["kind"] == "flight" for row in route)))
    first = dice.pick([row for row in routes[tail] if row["kind"] == "flight"])
    first = next(row for row in routes[tail] if row["start"][:10] == first["start"][:10])
    row = {key: "" for key in first}
    row.update(id="OUT", kind="ground", start=first["start"], end=first["start"], tail=tail)
    row["from"] = row["to"] = first["from"]
    row["end"] = (datetime.datetime.strptime(first["start"], FORM) + datetime.timedelta(days=1)).strftime(FORM)
    tables.activities.append(row)


def delay(dice, tables, routes):
    flights = [row for row in tables.activities if row["kind"] == "flight" and way_back(routes, row)]
    for _ in range(5):
        later(routes, dice.pick(flights), 90)


def cancel(dice, tables, routes):
    pairs = [
        pair
        for route in routes.values()
        for pair in zip(route, route[1:])
        if all(row["kind"] == "flight" and not row["tail"] for row in pair) and pair[0]["from"] == pair[1]["to"]
    ]
    out, back = dice.pick(pairs)
    for name, row in (("NEW1", out), ("NEW2", back)):
        new = {**row, "id": name}
        moved(new, 180)
        tables.activities.append(new)
    ends = [route[-1] for route in routes.values() if route and route[-1]["kind"] == "flight" and route[-1] not in (out, back)]
    gone = [out, back, dice.pick(ends)] if ends else [out, back]
    tables.activities = [row for row in tables.activities if not any(row is other for other in gone)]


def close(dice, tables, routes):
    flight = dice.pick([row for row in tables.activities if row["kind"] == "flight"])
    port, begin = flight["to"], flight["end"]
    for row in list(tables.activities):
        if row["kind"] == "flight":
            for where, when in (("from", "start"), ("to", "end")):
                since = minutes_from(begin, row[when])
                if row[where] == port and 0 <= since < 120:
                    later(routes, row, 120 - since)


DISRUPT = {"out": put_out, "late": delay, "cancelled": cancel, "closed": close}


def run(words, limit):
    """What a run printed, and the seconds of a processor that it took."""
    before = resource.getrusage(resource.RUSAGE_CHILDREN)
    try:
        done = subprocess.run(words, stdout=subprocess.PIPE, stderr=subprocess.DEVNULL, timeout=limit, check=False)
        printed = done.stdout.decode()
    except subprocess.TimeoutExpired:
        printed = "no end"
    after = resource.getrusage(resource.RUSAGE_CHILDREN)
    return printed, after.ru_utime + after.ru_stime - before.ru_utime - before.ru_stime


def names_in(folder):
    return [os.path.join(folder, name) for name in ("timetable.csv", "fleet.csv", "rules.toml")]


def time_table(program, limits, family, size, seed, work, found):
    """Plans the tables of a seed, disrupts them and repairs the plan."""
    activities, aircraft = size.split("x")
    made = os.path.join(work, "made")
    subprocess.run([sys.executable, os.path.join(HERE, "make_tables.py"), family, activities, aircraft, str(seed), made], check=True)
    tables = Tables(made)
    tables.add_reserves()
    tables.write(made)
    nodes = ["--nodes", os.environ["NODES"]] if "NODES" in os.environ else []
    plan, _ = run([program, *names_in(made), *nodes], limits["PLANNING"])
    if ":" not in plan:
        return
    published = os.path.join(work, "published.txt")
    with open(published, "w", encoding="utf-8") as file:
        file.write(plan)
    for kind in KINDS:
        changed = Tables(made)
        DISRUPT[kind](Dice(seed * 31 + KINDS.index(kind)), changed, changed.routes(plan))
        changed.write(os.path.join(work, kind))
        printed, took = run([program, "repair", *names_in(os.path.join(work, kind)), published], limits["LIMIT"])
        found[kind].append((printed.split()[0] if printed.split() else "nothing", took))


def told(runs):
    """How runs ended, and the seconds of those that were proved least."""
    proved = sorted(took for word, took in runs if word == "repaired")
    counts = dict(collections.Counter(word for word, _ in runs))
    if not proved:
        return f"{counts}"
    return f"{counts}; of those repaired {statistics.median(proved):.2f} s in the middle, {proved[len(proved) * 9 // 10]:.2f} at nine of ten"


def main(words):
    if len(words) < 3:
        sys.exit("usage: time_repairs.py FIRST LAST ACTIVITIESxAIRCRAFT [FAMILY ..]")
    os.environ["TAILPLAN_QUIET"] = "1"
    program = os.environ.get("PROGRAM", os.path.join(HERE, "..", "bin", "tailplan"))
    limits = {name: float(os.environ.get(name, seconds)) for name, seconds in (("LIMIT", 60), ("PLANNING", 300))}
    found = collections.defaultdict(list)
    for family in words[3:] or FAMILIES:
        for seed in range(int(words[0]), int(words[1]) + 1):
            with tempfile.TemporaryDirectory() as work:
                time_table(program, limits, family, words[2], seed, work, found)
    for kind, runs in found.items():
        print(f"{kind} {words[2]}: {told(runs)}")
    print(f"all {words[2]}: {told([run for runs in found.values() for run in runs])}", flush=True)


if __name__ == "__main__":
    main(sys.argv[1:])
