#!/usr/bin/env python3
"""Makes tables unlike those of make_tables.py: other networks, costs, slack and counters, and ten ways to have no plan.

    other_tables.py KIND ACTIVITIES AIRCRAFT SEED FOLDER

As there, routes are made first, and the tables are written from them. A book of the first five kinds has a legal plan,
which is written as plan.txt with its cost. In the others a book of the first three kinds, by the seed, is spoilt.
The same words make the same bytes, whatever the version of Python. Rates are 2 to 20, and no amount is fixed.

twohubs   spokes that both hubs serve, three to four flights a day, a counter with bases and one without
chains    lines of spokes behind a hub, five to six short flights a day, landings between nights at the hub
longlegs  two long flights a day, also by night, and hours that nothing clears, nearly used up
idle      a third of the fleet has nothing to do; waits cost by bands
days      checks after days of the calendar, some of them preassigned, curfews, and four counters

fleetlandings, typelandings  the fleet, or one type for flights that only it may fly, has a landing too few
fleethours, typehours        the same by 400 minutes
moment     more flights that one type alone may fly are in the air at once than it has aircraft
third      each aircraft may land a third as often as the longest route asks
between    three landings at most between stops of a day at a base
unreached  a check at an airport from which the only aircraft there has to leave during it
overlap    one aircraft has two checks at once, at two airports
curfew     the only type that may fly a flight may not land where it ends
"""

import os
import sys

from make_tables import DAY, FIRST_DAY, Activity, Aircraft, Counter, Dice, World
from make_tables import cost_of, fleet_of, rules_of, timetable_of, values_along

WITH_PLAN = ("twohubs", "chains", "longlegs", "idle", "days")
WITHOUT = ("fleetlandings", "typelandings", "fleethours", "typehours", "moment", "third", "between", "unreached",
           "overlap", "curfew")
WAITS = ((60, 0), (180, 40), (600, 15), (1440, 90))
# What so many flights a day leave between two flights, and the mean minutes of a flight.
PACE = {"twohubs": (3, 4, 95), "chains": (5, 6, 50), "longlegs": (2, 2, 400), "idle": (4, 4, 80), "days": (3, 6, 75)}


class Network(World):
    """Types, airports with their legs, curfews and counters of a kind."""

    def __init__(self, dice, kind, aircraft):
        self.kind, self.curfews = kind, []
        count = {"twohubs": 3, "chains": 2, "longlegs": 4, "idle": 2, "days": 4}[kind]
        self.kinds = [
            {"name": "PQRSTU"[t], "rate": dice.within(2, 20), "turn": dice.within(20, 45)} for t in range(count)
        ]
        self.hubs = [f"N{h}" for h in range({"twohubs": 2, "longlegs": 3, "days": 2}.get(kind, 1))]
        self.legs = {hub: [] for hub in self.hubs}
        if kind == "chains":
            self.add_chains(dice, 3 + aircraft // 8)
        else:
            self.add_spokes(dice, 7 + aircraft // 2)
        self.ports = list(self.legs)
        self.turn = {port: dice.within(20, 40) for port in self.ports}
        self.offset = {port: 60 * dice.within(-3, 3) for port in self.ports}
        if kind == "days":
            for port in self.ports[2::3]:
                self.curfews.append((port, 23 * 60, 5 * 60, [], dice.chance(50), True))
        self.counters = self.make_counters(kind)

    def add_leg(self, one, other, minutes):
        self.legs.setdefault(one, []).append((other, minutes))
        self.legs.setdefault(other, []).append((one, minutes))

    def add_chains(self, dice, chains):
        for c in range(chains):
            last = self.hubs[0]
            for s in range(dice.within(2, 4)):
                self.add_leg(last, f"C{c}-{s}", dice.within(30, 70))
                last = f"C{c}-{s}"

    def add_spokes(self, dice, spokes):
        low, high = {"twohubs": (50, 140), "longlegs": (200, 600), "idle": (50, 110), "days": (40, 110)}[self.kind]
        for h in range(1, len(self.hubs)):
            self.add_leg(self.hubs[h - 1], self.hubs[h], dice.within(low, high))
        for s in range(spokes):
            for hub in self.hubs if dice.chance(70) else [dice.pick(self.hubs)]:
                self.add_leg(hub, f"S{s:02}", dice.within(low, high))

    def make_counters(self, kind):
        hours, landings = Counter("fh", "minutes", self.hubs, 420), Counter("ldg", "landings", [], 1)
        if kind == "chains":
            return [Counter("ldg", "landings", self.hubs, 360)]
        if kind == "longlegs":
            return [Counter("fh", "minutes", [], 1)]
        if kind == "idle":
            return [hours]
        more = [Counter("chk", "days", [], 1), Counter("wk", "minutes", [], 1)] if kind == "days" else []
        return [hours, landings] + more


def start_after(dice, network, free, turn):
    """A start by day, or at any hour on long legs, that leaves an aircraft its flights a day."""
    low, high, minutes = PACE[network.kind]
    day = DAY if network.kind == "longlegs" else 960
    start = free + turn + dice.below(max(1, 2 * (day // dice.within(low, high) - minutes - turn)))
    if network.kind != "longlegs" and not 6 * 60 <= start % DAY < 21 * 60:
        start += (6 * 60 + dice.below(100) - start % DAY) % DAY
    return start


def make_route(dice, network, aircraft, count, checked):
    """A route of so many activities, with a check at a hub behind a half of them where one is asked for."""
    at, free, turn = aircraft.at, aircraft.ready, 0
    while len(aircraft.route) < count:
        if checked and at in network.hubs and 2 * len(aircraft.route) >= count:
            start, checked = free + dice.below(90), False
            step = Activity(False, at, at, start, start + dice.within(100, 300))
            step.resets = ["chk"]
        else:
            port, minutes = dice.pick(network.legs[at])
            start = start_after(dice, network, free, turn)
            step = Activity(True, at, port, start, start + minutes + dice.below(8))
            while network.is_curfewed(aircraft.kind, step):
                step.start, step.end = step.start + 20, step.end + 20
        aircraft.route.append(step)
        at, free = step.end_port, step.end
        turn = max(aircraft.kind["turn"], network.turn[at]) if step.flight else 0


def make_fleet(dice, network, activities, aircraft):
    """Aircraft with their routes. Some are idle: none to a quarter of them, and on idle tables a third."""
    idle = aircraft // 3 if network.kind == "idle" else aircraft * dice.below(26) // 100
    idle = min(idle, aircraft - 1)
    fleet = []
    for k in range(aircraft):
        ready = FIRST_DAY + 5 * 60 + dice.below(120)
        made = Aircraft(f"A{k:03}", dice.pick(network.kinds), dice.pick(network.hubs), ready)
        busy = aircraft - idle
        if k < busy:
            count = activities // busy + (k < activities % busy)
            make_route(dice, network, made, count, network.kind == "days")
        fleet.append(made)
    return fleet


def ask(dice, network, fleet):
    """Which types may fly what, and which checks are preassigned."""
    names = [kind["name"] for kind in network.kinds]
    for aircraft in fleet:
        for step in aircraft.route:
            if step.flight and dice.chance(40):
                step.types = [name for name in names if name == aircraft.kind["name"] or dice.chance(50)]
            if not step.flight and dice.chance(50):
                step.tail = aircraft.name


def set_limit(dice, counter, fleet, spare):
    """A limit that all routes keep with so many percent to spare, and carried values that leave them that."""
    along = [[v for v in values_along(counter, k.route, k.at, k.ready)] for k in fleet]
    most = max([value for values in along for value, _ in values] + [1])
    most += most * spare // 100
    counter.limit = -(-most // DAY) if counter.kind == "days" else most
    limit = counter.limit * DAY if counter.kind == "days" else most
    for aircraft, values in zip(fleet, along):
        first = max([value for value, cleared in values if not cleared] + [0])
        left = (limit - first) * (100 - dice.below(spare + 1)) // 100
        if first > 0 and left > 0:
            aircraft.carry.append(f"{counter.name}={left}")


def amount_of(counter, step):
    return (step.end - step.start if counter.kind == "minutes" else 1) if step.flight else 0


def use_up(network, fleet, name, kind, only, less):
    """A counter that nothing clears, of which a fleet, or one type and the flights that are its alone, has too little."""
    counter = Counter(name, kind, [], 1)
    needs = [sum(amount_of(counter, step) for step in k.route) for k in fleet]
    counter.limit = 2 * max(needs) + less
    network.counters = [counter]
    for aircraft, need in zip(fleet, needs):
        is_short = only is None or aircraft.kind["name"] == only
        aircraft.carry = [f"{name}={counter.limit - need}"] if is_short else []
        if only is not None and is_short:
            for step in aircraft.route:
                step.types = [only]
    for aircraft, need in zip(fleet, needs):
        if (only is None or aircraft.kind["name"] == only) and need >= less:
            aircraft.carry = [f"{name}={counter.limit - need + less}"]
            return
    sys.exit("no aircraft flies so much: take another seed")


def busiest_type(fleet):
    """The type whose routes have the most flights."""
    names = sorted({k.kind["name"] for k in fleet})
    return max(names, key=lambda name: sum(len(k.route) for k in fleet if k.kind["name"] == name))


def shorten_type(fleet):
    """Lets one type alone fly more flights of a moment than it has aircraft."""
    flights = [step for k in fleet for step in k.route if step.flight]
    in_air = max(([s for s in flights if s.start <= at.start < s.end] for at in flights), key=len)
    counts = {k.kind["name"]: 0 for k in fleet}
    for k in fleet:
        counts[k.kind["name"]] += 1
    name = min(sorted(counts), key=lambda name: counts[name])
    if len(in_air) <= counts[name]:
        sys.exit("too few flights are in the air at once: take another seed")
    for step in in_air[:counts[name] + 1]:
        step.types = [name]


def set_landings(network, fleet, limit, bases, stop):
    counter = Counter("ldg", "landings", bases, stop)
    counter.limit, network.counters = limit, [counter]
    for aircraft in fleet:
        aircraft.carry = []


def unreached_check(network, fleet):
    """A check that begins before the only aircraft at an airport leaves, and ends after that."""
    steps = [step for k in fleet for step in k.route]
    for leaving in steps:
        port, moment = leaving.start_port, leaving.start
        if port not in network.hubs:
            came = sum(s.end_port == port and s.end <= moment for s in steps)
            left = sum(s.start_port == port and s.start <= moment for s in steps)
            if came == left and came > 1:
                return [Activity(False, port, port, moment - 20, moment + 90)]
    sys.exit("two aircraft are at each airport at once: take another seed")


def overlapping_checks(network, fleet):
    aircraft = fleet[0]
    moment = aircraft.route[len(aircraft.route) // 2].end
    checks = [Activity(False, port, port, moment + i * 60, moment + 150 + i * 60) for i, port in enumerate(network.ports[:2])]
    for check in checks:
        check.tail = aircraft.name
    return checks


def close_airport(network, fleet):
    """Lets one type alone fly a flight, and closes the airport where it lands for that type at that time."""
    aircraft = fleet[0]
    step = [s for s in aircraft.route if s.flight][len(aircraft.route) // 2]
    step.types = [aircraft.kind["name"]]
    minute = (step.end + network.offset[step.end_port]) % DAY
    network.curfews.append((step.end_port, (minute - 10) % DAY, (minute + 10) % DAY, step.types, False, True))


def spoil(kind, network, fleet):
    """Leaves no legal plan, and answers activities that are added for that."""
    only = busiest_type(fleet)
    most = max(sum(step.flight for step in k.route) for k in fleet)
    if kind in ("fleetlandings", "typelandings"):
        use_up(network, fleet, "ldg", "landings", only if kind == "typelandings" else None, 1)
    elif kind in ("fleethours", "typehours"):
        use_up(network, fleet, "fh", "minutes", only if kind == "typehours" else None, 400)
    elif kind == "moment":
        shorten_type(fleet)
    elif kind == "third":
        set_landings(network, fleet, max(2, most // 3), [], 1)
    elif kind == "between":
        set_landings(network, fleet, 3, network.hubs, DAY)
    elif kind == "unreached":
        return unreached_check(network, fleet)
    elif kind == "overlap":
        return overlapping_checks(network, fleet)
    elif kind == "curfew":
        close_airport(network, fleet)
    return []


def bands_of(bands):
    return "".join(f"\n[[band]]\nupto = {upto}\ncost = {cost}\n" for upto, cost in bands)


def plan_of(fleet, bands):
    lines = [" ".join([k.name + ":"] + [step.id for step in k.route]) for k in fleet]
    return "\n".join([f"limit 0 {sum(cost_of(k, bands) for k in fleet)}"] + lines) + "\n"


def base_of(kind, seed):
    """The kind whose book is made, and spoilt where it is another one."""
    if kind in WITH_PLAN:
        return kind
    # Two landings a day need no more, and a long leg is longer than 400 minutes.
    is_short = kind in ("third", "between", "fleethours", "typehours")
    return ("twohubs", "chains")[seed % 2] if is_short else WITH_PLAN[seed % 3]


def make(kind, activities, aircraft, seed):
    """The files of a book by their names."""
    dice = Dice(7 * seed + 1000003)
    base = base_of(kind, seed)
    network = Network(dice, base, aircraft)
    extra = {"unreached": 1, "overlap": 2}.get(kind, 0)
    fleet = make_fleet(dice, network, activities - extra, aircraft)
    ask(dice, network, fleet)
    for counter in network.counters:
        set_limit(dice, counter, fleet, {"twohubs": 15, "longlegs": 5, "idle": 60}.get(base, 10))
    steps = [step for k in fleet for step in k.route] + spoil(kind, network, fleet)
    steps.sort(key=lambda s: (s.start, s.end, s.start_port, s.end_port))
    for number, step in enumerate(steps):
        step.id = f"{'F' if step.flight else 'G'}{number:04}"
    bands = WAITS if base in ("idle", "days") else ()
    rules = rules_of(network, "plain") + bands_of(bands)
    files = {"timetable.csv": timetable_of(steps), "fleet.csv": fleet_of(fleet), "rules.toml": rules}
    if kind in WITH_PLAN:
        files["plan.txt"] = plan_of(fleet, bands)
    return files


def main(words):
    kinds = WITH_PLAN + WITHOUT
    if len(words) != 5 or words[0] not in kinds or not all(word.isdigit() for word in words[1:4]):
        sys.exit("usage: other_tables.py KIND ACTIVITIES AIRCRAFT SEED FOLDER\nkinds: " + " ".join(kinds))
    kind, (activities, aircraft, seed), folder = words[0], map(int, words[1:4]), words[4]
    if not 3 <= aircraft <= 200 or not 4 * aircraft <= activities <= min(4000, 40 * aircraft):
        sys.exit("3 to 200 aircraft, and from four for each to forty, and at most 4,000 activities")
    os.makedirs(folder, exist_ok=True)
    for name, text in make(kind, activities, aircraft, seed).items():
        with open(os.path.join(folder, name), "w", encoding="ascii", newline="\n") as file:
            file.write(text)


if __name__ == "__main__":
    main(sys.argv[1:])
