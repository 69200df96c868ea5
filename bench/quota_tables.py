#!/usr/bin/env python3
"""Writes a table of quotas for tables that bench/make_tables.py wrote, from a least plan of theirs.

    quota_tables.py FOLDER PLAN PERCENT [BELOW]

PLAN is what the planner printed for the tables in FOLDER. The one quota counts connections of less than BELOW minutes, 60 where none
is given, at the hub and on the day where the plan has most of them, and lets a plan have so many percent of these, rounded down. It is
written to FOLDER/quotas.csv.
"""

import csv
import os
import sys
from datetime import datetime


def minutes(stamp):
    return int((datetime.strptime(stamp, "%Y-%m-%dT%H:%M") - datetime(1970, 1, 1)).total_seconds()) // 60


def main(words):
    if len(words) not in (3, 4):
        sys.exit(__doc__)
    folder, plan, percent = words[0], words[1], int(words[2])
    below = int(words[3]) if len(words) == 4 else 60
    with open(os.path.join(folder, "timetable.csv"), encoding="utf-8") as file:
        rows = {row["id"]: row for row in csv.DictReader(file)}
    used = {}
    with open(plan, encoding="utf-8") as file:
        for line in file:
            if ":" not in line or line.startswith("seconds"):
                continue
            ids = line.split(":")[1].split()
            for a, b in zip(ids, ids[1:]):
                first, second = rows[a], rows[b]
                if minutes(second["start"]) - minutes(first["end"]) < below and len(second["from"]) == 3:
                    bank = (second["from"], second["start"][:10])
                    used[bank] = used.get(bank, 0) + 1
    (airport, day), count = max(used.items(), key=lambda item: (item[1], item[0]))
    with open(os.path.join(folder, "quotas.csv"), "w", encoding="utf-8") as file:
        file.write(f"airport,day,below,most\n{airport},{day},{below},{count * percent // 100}\n")
    print(f"{airport} {day}: {count} connections, of which {count * percent // 100} may be")


if __name__ == "__main__":
    main(sys.argv[1:])
