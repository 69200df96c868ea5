#!/usr/bin/env python3
"""Makes a timetable, a fleet and rules of a family and a size, from a seed.

    make_tables.py FAMILY ACTIVITIES AIRCRAFT SEED FOLDER

Routes are made first, one for each aircraft, with turns and curfews kept. Then the flights of all routes are written as
the timetable, and the limits and the carried values of the counters are set so that these routes keep them. So every
book but those of the last two families has a legal plan, which is written as plan.txt with its cost.
The same words make the same bytes, whatever the version of Python.

plain  type lists, rates by type
mix    rates and fixed amounts that differ widely
tight  three counters, nearly used up, and checks
band   six bands of connection costs
full   everything at once: also curfews, tags, avoided airports, preassigned checks, six counters
count  no plan: more departures at one moment than there are aircraft
place  no plan: one airport has more departures than arrivals
"""

import os
import sys

FAMILIES = ("plain", "mix", "tight", "band", "full", "count", "place")
DAY = 1440
# 2025-03-03T00:00, in minutes since 1970-01-01T00:00
FIRST_DAY = 20150 * DAY
BANDS = ((40, 60), (75, 0), (150, 20), (300, 60), (720, 100), (1800, 40))
TAGS = ("etops", "wifi", "cargo", "short")


class Dice:
    """Numbers that look like chance, the same ones for the same seed."""

    def __init__(self, seed):
        self.state = (seed * 2 + 1) % 2**64
        for _ in range(4):
            self.below(2)

    def below(self, n):
        self.state = (self.state * 6364136223846793005 + 1442695040888963407) % 2**64
        return (self.state >> 33) % n

    def within(self, low, high):
        return low + self.below(high - low + 1)

    def chance(self, percent):
        return self.below(100) < percent

    def pick(self, items):
        return items[self.below(len(items))]


class Activity:
    def __init__(self, flight, start_port, end_port, start, end):
        self.flight, self.start_port, self.end_port = flight, start_port, end_port
        self.start, self.end = start, end
        self.types, self.tags, self.tail, self.resets, self.id = [], [], "", [], ""


class Aircraft:
    def __init__(self, name, kind, hub, ready):
        self.name, self.kind, self.hub, self.ready = name, kind, hub, ready
        self.at, self.fixed, self.tags, self.avoid, self.carry, self.route = hub, 0, [], [], [], []


class Counter:
    def __init__(self, name, kind, bases, stop):
        self.name, self.kind, self.bases, self.stop, self.limit = name, kind, bases, stop, 1


class World:
    """Types, airports, curfews and counters, and what routes have to keep of them."""

    def __init__(self, dice, family, aircraft):
        full = family == "full"
        self.kinds = [
            {"name": f"T{t}", "rate": 3 + 2 * t, "turn": 25 + 5 * (t % 5)} for t in range(6 if full else 3)
        ]
        if family in ("mix", "full"):
            for kind in self.kinds:
                kind["rate"] = dice.within(1, 60)
        self.hubs = [f"H{h:02}" for h in range(max(1, aircraft // 50))]
        self.spokes = {hub: [f"{hub}-{s:02}" for s in range(8 + aircraft // 20)] for hub in self.hubs}
        self.ports = self.hubs + [spoke for hub in self.hubs for spoke in self.spokes[hub]]
        self.turn = {port: dice.within(20, 40) for port in self.ports}
        self.offset = {port: (dice.below(5) - 2) * 60 if full else 60 for port in self.ports}
        self.minutes = {spoke: dice.within(40, 150) for hub in self.hubs for spoke in self.spokes[hub]}
        self.curfews = []
        if full:
            for port in self.ports[len(self.hubs):]:
                if dice.chance(25):
                    types = [] if dice.chance(60) else [dice.pick(self.kinds)["name"]]
                    self.curfews.append((port, 23 * 60, 5 * 60 + 30, types, True, dice.chance(80)))
        self.counters = self.make_counters(family)

    def make_counters(self, family):
        hours = Counter("hours", "minutes", self.hubs, 420)
        landings = Counter("landings", "landings", self.hubs, 420)
        check = Counter("check", "days", [], 100000)
        if family == "full":
            return [hours, landings, check,
                    Counter("weekly", "minutes", self.hubs, 1200),
                    Counter("gear", "landings", self.hubs, 1200),
                    Counter("wash", "days", self.hubs, 600)]
        return [hours, landings, check] if family == "tight" else [hours, landings]

    def is_closed(self, kind, port, moment, starts):
        minute = (moment + self.offset[port]) % DAY
        for airport, first, last, types, for_starts, for_landings in self.curfews:
            if airport == port and (for_starts if starts else for_landings) and (not types or kind["name"] in types):
                if (first <= minute < last) if first < last else (minute >= first or minute < last):
                    return True
        return False

    def is_curfewed(self, kind, flight):
        return (self.is_closed(kind, flight.start_port, flight.start, True)
                or self.is_closed(kind, flight.end_port, flight.end, False))


def next_port(dice, world, at):
    """From an outstation back to its hub, and from a hub mostly out to one of its own."""
    if at not in world.hubs:
        return at[:3]
    if len(world.hubs) > 1 and dice.chance(10):
        return dice.pick([hub for hub in world.hubs if hub != at])
    return dice.pick(world.spokes[at])


def flight_from(dice, world, aircraft, at, free, turned):
    """A flight out of an airport, no earlier than its turn, by day, and in no curfew."""
    end_port = next_port(dice, world, at)
    minutes = 95 if at in world.hubs and end_port in world.hubs else world.minutes[end_port if at in world.hubs else at]
    start = free + (max(aircraft.kind["turn"], world.turn[at]) if turned else 0) + dice.below(40)
    if start % DAY > 21 * 60 + 30 or start % DAY < 5 * 60:
        start += (5 * 60 + 30 + dice.below(90) - start % DAY) % DAY
    flight = Activity(True, at, end_port, start, start + minutes)
    while world.is_curfewed(aircraft.kind, flight):
        flight.start, flight.end = flight.start + 15, flight.end + 15
    return flight


def make_route(dice, world, aircraft, count, with_check):
    """A route of so many activities, with a check at a hub about half way where one is asked for."""
    at, free, turned, checked = aircraft.at, aircraft.ready, False, not with_check
    while len(aircraft.route) < count:
        if not checked and 2 * len(aircraft.route) >= count and at in world.hubs:
            start = free + dice.below(60)
            step, checked = Activity(False, at, at, start, start + dice.within(120, 360)), True
            step.resets = ["check"]
        else:
            step = flight_from(dice, world, aircraft, at, free, turned)
        aircraft.route.append(step)
        at, free, turned = step.end_port, step.end, step.flight


def values_along(counter, route, place, free):
    """The counter's values along a route from 0, each with whether a clearing came before it or with it."""
    value, cleared_once, along = 0, False, []
    for step in route:
        cleared = place in counter.bases and step.start - free >= counter.stop
        value = 0 if cleared else value
        if counter.kind == "minutes":
            value += step.end - step.start if step.flight else 0
        elif counter.kind == "landings":
            value += 1 if step.flight else 0
        else:
            value += step.end - (step.start if cleared else free)
        reset = counter.name in step.resets
        value = 0 if reset else value
        cleared_once = cleared_once or cleared or reset
        along.append((value, cleared_once))
        place, free = step.end_port, step.end
    return along


def set_limits(dice, world, fleet, used):
    """Limits that all routes keep, and carried values that use up to so many percent of what is left."""
    for counter in world.counters:
        along = [values_along(counter, k.route, k.at, k.ready) for k in fleet]
        most = max([value for values in along for value, _ in values] + [1])
        room = most if used > 50 else 2 * most
        counter.limit = -(-room // DAY) if counter.kind == "days" else room
        limit = counter.limit * DAY if counter.kind == "days" else counter.limit
        for aircraft, values in zip(fleet, along):
            first = max([value for value, cleared in values if not cleared] + [0])
            carried = (limit - first) * (used - dice.below(5) if used > 50 else dice.below(used + 1)) // 100
            if carried > 0:
                aircraft.carry.append(f"{counter.name}={carried}")


def make_fleet(dice, world, family, activities, aircraft):
    fleet = []
    for k in range(aircraft):
        ready = FIRST_DAY + 4 * 60 + dice.below(90)
        made = Aircraft(f"A{k:03}", dice.pick(world.kinds), world.hubs[k % len(world.hubs)], ready)
        if family in ("mix", "full"):
            made.fixed = dice.below(2000)
        if family == "full":
            made.tags = [tag for tag in TAGS if dice.chance(70)]
        count = activities // aircraft + (k < activities % aircraft)
        make_route(dice, world, made, count, family in ("tight", "full"))
        fleet.append(made)
    return fleet


def ask(dice, world, family, fleet):
    """What activities ask of aircraft, and what aircraft avoid: all of it kept by the routes."""
    names = [kind["name"] for kind in world.kinds]
    for aircraft in fleet:
        for step in aircraft.route:
            if step.flight and dice.chance(60):
                step.types = [n for n in names if n == aircraft.kind["name"] or dice.chance(50)]
            if family == "full" and step.flight and aircraft.tags and dice.chance(15):
                step.tags = [dice.pick(aircraft.tags)]
            if family == "full" and not step.flight and dice.chance(50):
                step.tail = aircraft.name
        if family == "full" and dice.chance(30):
            port = dice.pick(world.ports)
            if all(port not in (step.start_port, step.end_port) for step in aircraft.route) and port != aircraft.at:
                aircraft.avoid = [port]


def at_once(world, fleet):
    """As many flights at one moment as there are aircraft, and one more."""
    hub, moment = world.hubs[0], FIRST_DAY + 12 * 60
    spokes = world.spokes[hub]
    minutes = [world.minutes[spokes[i % len(spokes)]] for i in range(len(fleet) + 1)]
    return [Activity(True, hub, spokes[i % len(spokes)], moment, moment + m) for i, m in enumerate(minutes)]


def one_more_departure(world, fleet):
    """A flight out of an airport where as many depart as arrive, and no aircraft comes in."""
    steps = [step for aircraft in fleet for step in aircraft.route]
    for hub in world.hubs:
        for spoke in world.spokes[hub]:
            arrive = [step for step in steps if step.end_port == spoke]
            if len(arrive) == sum(step.start_port == spoke for step in steps):
                start = max([step.end for step in arrive] + [FIRST_DAY + 6 * 60]) + 60
                return [Activity(True, spoke, hub, start, start + world.minutes[spoke])]
    sys.exit("no airport has as many departures as arrivals: take another seed")


def stamp(moment):
    day, minute = divmod(moment - FIRST_DAY, DAY)
    # March has 31 days, and no table reaches past April.
    month, day = (3, 3 + day) if day < 29 else (4, day - 28)
    return f"2025-{month:02}-{day:02}T{minute // 60:02}:{minute % 60:02}"


def timetable_of(steps):
    rows = ["id,kind,from,to,start,end,types,tags,tail,resets"]
    for s in steps:
        kind = "flight" if s.flight else "ground"
        lists = " ".join(s.types), " ".join(s.tags), s.tail, " ".join(s.resets)
        rows.append(",".join((s.id, kind, s.start_port, s.end_port, stamp(s.start), stamp(s.end)) + lists))
    return "\n".join(rows) + "\n"


def fleet_of(fleet):
    rows = ["tail,type,at,ready,fixed,tags,avoid,carry"]
    for k in fleet:
        lists = " ".join(k.tags), " ".join(k.avoid), " ".join(k.carry)
        rows.append(",".join((k.name, k.kind["name"], k.at, stamp(k.ready), str(k.fixed)) + lists))
    return "\n".join(rows) + "\n"


def quoted(names):
    return "[" + ", ".join(f'"{name}"' for name in names) + "]"


def rules_of(world, family):
    text = []
    for kind in world.kinds:
        text += ["[[type]]", f'name = "{kind["name"]}"', f'rate = {kind["rate"]}', f'turn = {kind["turn"]}', ""]
    for port in world.ports:
        text += ["[[airport]]", f'name = "{port}"', f"offset = {world.offset[port]}", f"turn = {world.turn[port]}", ""]
    for port, first, last, types, starts, landings in world.curfews:
        hours = [f'{name} = "{m // 60:02}:{m % 60:02}"' for name, m in (("from", first), ("to", last))]
        holds = [f"start = {str(starts).lower()}", f"landing = {str(landings).lower()}"]
        text += ["[[curfew]]", f'airport = "{port}"', *hours, f"types = {quoted(types)}", *holds, ""]
    for c in world.counters:
        ends = [f"limit = {c.limit}", f"bases = {quoted(c.bases)}", f"stop = {c.stop}"]
        text += ["[[counter]]", f'name = "{c.name}"', f'kind = "{c.kind}"', *ends, ""]
    if family in ("band", "full"):
        for upto, cost in BANDS:
            text += ["[[band]]", f"upto = {upto}", f"cost = {cost}", ""]
    return "\n".join(text)


def cost_of(aircraft, bands):
    """What an aircraft's route costs: minutes flown, the fixed amount of each activity, and waits by the first band."""
    cost, last = 0, None
    for step in aircraft.route:
        cost += aircraft.fixed + (aircraft.kind["rate"] * (step.end - step.start) if step.flight else 0)
        if last is not None:
            cost += next((price for upto, price in bands if step.start - last <= upto), 0)
        last = step.end
    return cost


def plan_of(fleet, family):
    cost = sum(cost_of(k, BANDS if family in ("band", "full") else ()) for k in fleet)
    lines = [" ".join([k.name + ":"] + [step.id for step in k.route]) for k in fleet]
    return "\n".join([f"limit 0 {cost}"] + lines) + "\n"


def make(family, activities, aircraft, seed):
    """The files of a book by their names."""
    dice = Dice(seed)
    world = World(dice, family, aircraft)
    extra = {"count": aircraft + 1, "place": 1}.get(family, 0)
    fleet = make_fleet(dice, world, family, activities - extra, aircraft)
    ask(dice, world, family, fleet)
    set_limits(dice, world, fleet, 98 if family in ("tight", "full") else 30)
    steps = [step for k in fleet for step in k.route]
    if family == "count":
        steps += at_once(world, fleet)
    if family == "place":
        steps += one_more_departure(world, fleet)
    steps.sort(key=lambda s: (s.start, s.end, s.start_port, s.end_port))
    for number, step in enumerate(steps):
        step.id = f"{'F' if step.flight else 'G'}{number:04}"
    files = {"timetable.csv": timetable_of(steps), "fleet.csv": fleet_of(fleet), "rules.toml": rules_of(world, family)}
    if family not in ("count", "place"):
        files["plan.txt"] = plan_of(fleet, family)
    return files


def main(words):
    if len(words) != 5 or words[0] not in FAMILIES or not all(word.isdigit() for word in words[1:4]):
        sys.exit("usage: make_tables.py FAMILY ACTIVITIES AIRCRAFT SEED FOLDER\nfamilies: " + " ".join(FAMILIES))
    family, (activities, aircraft, seed), folder = words[0], map(int, words[1:4]), words[4]
    if not 1 <= aircraft <= 200 or not 2 * aircraft + 2 <= activities <= 4000:
        sys.exit("1 to 200 aircraft, and from two for each and two more to 4,000 activities")
    os.makedirs(folder, exist_ok=True)
    for name, text in make(family, activities, aircraft, seed).items():
        with open(os.path.join(folder, name), "w", encoding="ascii", newline="\n") as file:
            file.write(text)


if __name__ == "__main__":
    main(sys.argv[1:])
