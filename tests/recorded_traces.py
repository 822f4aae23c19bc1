"""Reads traces that tools/trace-of made: whether each is valid, as docs/FORMATS.md has the rules, and which laws its report breaks.
`tests/run` and `tests/recording` take it. The traces have no name cache, and none of the lines that trace-of doesn't write."""

import re

SLOTS = 65536
MOST_TEXT = 16 << 20
HEAD = re.compile(
    r"uma 1\nworkers (?P<workers>\d+)\ndomains (?P<domains>[1-4])\n(?P<clock>clock 1 1073741824\n)?(?P<detail>detail\n)?"
    r"(?P<zones>(?:zone [A-Za-z0-9_-]{1,16} \d+ \d+ \d+ \d+ 0 (?:plain|smr)\n)*)"
)
NUMBER = re.compile(r"0|[1-9]\d*")


class Invalid(Exception):
    """The line of a trace that is wrong, and why."""


class Zone:
    def __init__(self, line):
        _, self.name, *numbers, self.kind = line.split()
        self.size, self.slabs, self.bucket, self.limit, _ = map(int, numbers)
        self.requests = self.frees = 0
        self.per_slab = min(256, 4096 // self.size)

    def is_in_range(self, clock):
        ranges = 8 <= self.size <= 4096 and 1 <= self.slabs <= 1024 and 4 <= self.bucket <= 64 and 0 <= self.limit <= 1_000_000
        return ranges and (clock or self.kind == "plain")


class RecordedTrace:
    """A trace that is read line by line; the constructor fails at the first line that breaks a rule."""

    def __init__(self, text):
        head = HEAD.match(text)
        self.needs(head and len(text) <= MOST_TEXT, 0, "the header")
        self.workers, self.domains, self.clock = int(head["workers"]), int(head["domains"]), bool(head["clock"])
        zones = [Zone(line) for line in head["zones"].splitlines()]
        self.zones = {zone.name: zone for zone in zones}
        self.needs(1 <= self.workers <= 16 and len(self.zones) == len(zones) <= 16 and all(zone.is_in_range(self.clock) for zone in zones), 0, "the ranges")
        self.held, self.open, self.between = {}, set(), False
        self.gives = self.enters = self.rounds = 0
        lines = text[head.end() :].split("\n")
        self.needs(lines[-2:] == ["end", ""], 0, "its end")
        self.operations = lines[:-2]
        for at, line in enumerate(self.operations, head[0].count("\n") + 1):
            self.read(at, *line.split(" "))

    def needs(self, holds, line, what):
        if not holds:
            raise Invalid(f"line {line}: {what}")

    def read(self, at, word, *fields):
        self.needs(all(NUMBER.fullmatch(it) for it in fields if it not in self.zones), at, "bad number")
        worker = int(fields[0]) if fields else 0
        self.needs(worker < self.workers, at, "no such worker")
        self.needs(word != "give" or self.between, at, "out of place")
        self.between = word in ("round", "give")
        counts = {"alloc": 3, "free": 2, "give": 4, "enter": 1, "exit": 1, "round": 0}
        self.needs(counts.get(word) == len(fields), at, "fields")
        getattr(self, f"read_{word}")(at, *fields)

    def fill(self, at, worker, slot, zone):
        self.needs(int(slot) < SLOTS and int(worker) < self.workers, at, "out of range")
        self.needs((worker, slot) not in self.held, at, "slot busy")
        self.held[worker, slot] = zone

    def empty(self, at, worker, slot):
        self.needs((worker, slot) in self.held, at, "slot empty")
        return self.held.pop((worker, slot))

    def read_alloc(self, at, worker, zone, slot):
        self.needs(zone in self.zones, at, "no such zone")
        self.zones[zone].requests += 1
        self.fill(at, worker, slot, self.zones[zone])

    def read_free(self, at, worker, slot):
        self.empty(at, worker, slot).frees += 1

    def read_give(self, at, worker, slot, taker, other):
        self.needs((worker, slot) != (taker, other), at, "slot busy")
        self.fill(at, taker, other, self.empty(at, worker, slot))
        self.gives += 1

    def read_enter(self, at, worker):
        self.needs(self.clock and worker not in self.open, at, "section open")
        self.open.add(worker)
        self.enters += 1

    def read_exit(self, at, worker):
        self.needs(worker in self.open, at, "no section")
        self.open.remove(worker)

    def read_round(self, at):
        self.rounds += 1

    # The report.

    def broken(self, report):
        """The laws that a report breaks; of a trace with `detail` those of its hooks and kegs too."""
        lines = [line.split() for line in report.splitlines()]
        rows = {name: list(map(int, numbers)) for name, *numbers in lines[1 : len(self.zones) + 1]}
        if list(rows) != list(self.zones):
            return ["the zones"]
        laws = {}
        for zone in self.zones.values():
            size, limit, used, free, req, fail, sleep, xdomain = rows[zone.name]
            laws[f"{zone.name}: its numbers"] = (size, limit, sleep) == (zone.size, zone.limit, 0)
            laws[f"{zone.name}: requests"] = req + fail == zone.requests and (fail == 0 or zone.limit > 0)
            laws[f"{zone.name}: used"] = 0 <= used - (zone.requests - zone.frees) + fail <= fail
            laws[f"{zone.name}: free"] = (used + free) % zone.per_slab == 0 and used + free <= zone.slabs * zone.per_slab
            laws[f"{zone.name}: another domain"] = xdomain <= (zone.frees if self.domains > 1 else 0)
        for word, *fields in lines[len(self.zones) + 1 :]:
            laws.update(self.laws_of(word, fields, rows))
        return [law for law, holds in laws.items() if not holds]

    def laws_of(self, word, fields, rows):
        if word == "clock":
            read, write, entered, late = map(int, fields)
            return {"the clock": read <= write and (entered, late) == (self.enters, 0)}
        name, *numbers = fields
        zone, (_, _, used, free, req, _, _, _) = self.zones[name], rows[name]
        if word == "hooks":
            inits, ctors, dtors, finis, deferred = map(int, numbers)
            hooks = inits == finis == 0 and ctors == req and ctors - dtors == used + deferred
            return {f"{name}: hooks": hooks and (deferred == 0 or zone.kind == "smr")}
        slabs, at_home, inits, finis = map(int, numbers)
        return {f"{name}: keg": slabs <= zone.slabs and inits - finis == slabs * zone.per_slab == used + free and at_home <= free}


def with_detail(text):
    """The trace with the line that asks for hooks and kegs."""
    return re.sub(r"(?m)^((?:domains|clock) .*\n)(?=zone|alloc|end)", r"\1detail\n", text, count=1)
