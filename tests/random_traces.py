"""Random traces by a seed: valid ones of each version, each with the laws that its report keeps whatever the schedule of its workers
was, and refused ones with their first fault. `tests/run` replays them.

The reading of lines and the order of their tests, as docs/FORMATS.md has them, are written here a second time.
"""

import random

TITLES = "ITEM              SIZE    LIMIT     USED     FREE        REQ     FAIL SLEEP  XDOMAIN"
COLUMNS = ["size", "limit", "used", "free", "req", "fail", "sleep", "xdomain"]
# How often a word is drawn. Only what a worker does by itself or in a zone has a worker as its first field.
WORDS = {"alloc": 30, "free": 24, "enter": 4, "exit": 5, "bind": 5, "unbind": 2, "look": 6, "trim": 1, "drain": 1, "drainseat": 1,
         "prealloc": 1, "away": 4, "back": 8, "round": 3, "give": 2, "setmax": 1}
BETWEEN = {"give": 5, "setmax": 1, "alloc": 4}
IN_ZONE = ("alloc", "trim", "drain", "drainseat", "prealloc")
ON_SEAT = ("enter", "exit", "away", "back")
ON_NAMES = ("bind", "unbind", "look")
SLOTS = 8


class Zone:
    """A zone line: its name, the zone over whose keg it is, and its numbers."""

    def __init__(self, name, of, size, slabs, bucket, limit, reserve, kind):
        self.name, self.of, self.size, self.slabs, self.limit, self.kind = name, of, size, slabs, limit, kind
        shared = f"{name} {of.name} {bucket} {limit} {kind}" if of else f"{name} {size} {slabs} {bucket} {limit} {reserve} {kind}"
        self.line = f"{'second' if of else 'zone'} {shared}"
        self.requests = self.with_arg = self.frees = 0

    def per_slab(self):
        return min(256, 4096 // self.size)


class Trace:
    """A trace that is drawn line by line: what fits is kept, and of what doesn't where it stood and what is wrong with it."""

    def __init__(self, seed):
        self.random = random.Random(seed)
        self.draw_head()
        self.ops, self.refused = [], []
        self.held, self.open, self.away, self.behind_round = {}, set(), set(), False
        self.counts = dict.fromkeys(["enter", "look", "look outside", "bind", "unbind"], 0)
        for line in self.draw_lines():
            kind = self.first_fault(line.split())
            if kind is None:
                self.ops.append(line)
                self.do(line.split())
            else:
                self.refused.append((len(self.ops), line, kind))

    def draw_head(self):
        pick, below = self.random.choice, self.random.randrange
        self.version, self.workers, self.domains = pick([1, 2, 3, 3]), pick([1, 1, 2, 3, 5, 8]), pick([1, 2, 4])
        self.start, self.window = pick([1, 3, 4294967291, 4294967295]), pick([4, 8, 1024, 2**30])
        self.clock = below(6) > 0
        self.names = (below(16) + 1, below(3) + 1) if self.clock and below(2) else None
        kinds = ["plain", "smr"] if self.clock else ["plain"]
        limit = lambda: pick([0, 0, 0, 1, 7, 40])
        self.zones = []
        for place in range(below(3) + 1):
            primary = Zone(f"z{place}", None, pick([8, 64, 100, 256, 512, 4096]), below(4) + 1, pick([4, 6]), limit(), pick([0, 0, 3]), pick(kinds))
            self.zones.append(primary)
            for number in range(below(3)):
                self.zones.append(Zone(f"z{place}s{number}", primary, primary.size, primary.slabs, 4, limit(), 0, pick(kinds)))
        self.limits = {zone.name: zone.limit for zone in self.zones}

    def draw_lines(self):
        for _ in range(self.random.randrange(20, 500)):
            yield self.draw_line()

    def draw_line(self):
        words = BETWEEN if self.behind_round else WORDS
        word = self.random.choices(list(words), words.values())[0]
        below, worker = self.random.randrange, self.random.randrange(self.workers)
        zone = self.random.choice([*self.zones] * 4 + [None])
        zone = zone.name if zone else self.random.choice(["none", "dir"])
        fields = {
            "alloc": f"{worker} {zone} {below(SLOTS)}" + self.random.choice([""] * 12 + [" arg 7", " reserve", " arg 254 reserve", " arg 0"]),
            "free": f"{worker} {below(SLOTS)}",
            "bind": f"{worker} {below(24)} {below(2**64)}",
            "prealloc": f"{worker} {zone} {below(40)}",
            "give": f"{worker} {below(SLOTS)} {below(self.workers)} {below(SLOTS)}",
            "setmax": f"{zone} {self.random.choice([0, 1, 5, 30])}",
            "round": "",
        }
        if word in ("unbind", "look"):
            return f"{word} {worker} {below(24)}"
        return f"{word} {fields.get(word) or (f'{worker} {zone}' if word in IN_ZONE else worker)}" if word != "round" else word

    def first_fault(self, line):
        """The first test of the table that a line fails behind what was done; its count of fields and its numbers are right."""
        word, *fields = line
        if (word == "setmax" and self.version < 2) or (word in ("away", "back") and self.version < 3):
            return "Word"
        if word in ("give", "setmax") and not self.behind_round:
            return "Place"
        if word in ON_SEAT and not self.clock:
            return "NoClock"
        if word in ON_NAMES and not self.names:
            return "NoNames"
        if word in IN_ZONE and fields[1] not in self.limits or word == "setmax" and fields[0] not in self.limits:
            return "NoZone"
        if word == "alloc" and (fields[0], fields[2]) in self.held:
            return "SlotBusy"
        if word == "give" and (fields[:2] == fields[2:] or (fields[2], fields[3]) in self.held):
            return "SlotBusy"
        if word in ("free", "give") and (fields[0], fields[1]) not in self.held:
            return "SlotEmpty"
        if word in ("enter", "away") and fields[0] in self.open:
            return "SectionOpen"
        if word == "exit" and fields[0] not in self.open:
            return "SectionClosed"
        if word not in ("round", "give", "setmax", "back") and fields[0] in self.away:
            return "Absent"
        if word == "back" and fields[0] not in self.away:
            return "Present"
        return None

    def do(self, line):
        word, *fields = line
        self.behind_round = word in ("round", "give", "setmax")
        if word in self.counts:
            self.counts[word] += 1
        if word == "alloc":
            zone = next(it for it in self.zones if it.name == fields[1])
            self.held[fields[0], fields[2]] = zone
            zone.requests += 1
            zone.with_arg += "arg" in fields and fields[4] != "0"
        elif word == "free":
            self.held.pop((fields[0], fields[1])).frees += 1
        elif word == "give":
            self.held[fields[2], fields[3]] = self.held.pop((fields[0], fields[1]))
        elif word == "setmax":
            self.limits[fields[0]] = int(fields[1])
        elif word in ("enter", "exit"):
            (self.open.add if word == "enter" else self.open.remove)(fields[0])
        elif word in ("away", "back"):
            (self.away.add if word == "away" else self.away.remove)(fields[0])
        elif word == "look":
            self.counts["look outside"] += fields[0] not in self.open

    def head(self, version):
        lines = [f"uma {version}", f"workers {self.workers}", f"domains {self.domains}"]
        lines += [f"clock {self.start} {self.window}"] if self.clock else []
        lines += ["detail", *(zone.line for zone in self.zones)]
        return lines + (["names dir {} {} 4".format(*self.names)] if self.names else [])

    def text(self):
        return "\n".join([*self.head(self.version), *self.ops, "end", ""]).encode()

    def stays(self):
        """The same trace with nobody away, in each version that knows its lines: one worker's report is the same."""
        ops = [line for line in self.ops if line.split()[0] not in ("away", "back")]
        first = 2 if any(line.startswith("setmax") for line in ops) else 1
        return ["\n".join([*self.head(version), *ops, "end", ""]).encode() for version in range(first, 4)]

    def spoiled(self):
        """The trace with one of the lines that don't fit, of which there is one; the number of that line, and its kind."""
        wanted = self.random.choice(sorted({kind for _, _, kind in self.refused}))
        at, line, kind = self.random.choice([it for it in self.refused if it[2] == wanted])
        lines = [*self.head(self.version), *self.ops[:at], line, *self.ops[at:], "end", ""]
        return "\n".join(lines).encode(), len(self.head(self.version)) + at + 1, kind

    # The laws of a report.

    def broken(self, text):
        """The laws that a report of this trace breaks."""
        laws = []
        keeps = lambda what, is_kept: None if is_kept else laws.append(what)
        lines = text.decode().splitlines()
        titles, *wanted = self.shape()
        keeps("the lines that there are", [TITLES, *(line.split()[: len(it)] for line, it in zip(lines[1:], wanted))] == [titles, *wanted])
        keeps("how many lines there are", len(lines) == len(wanted) + 1)
        if laws:
            return laws
        count = len(self.zones) + bool(self.names)
        rows = {row[0]: dict(zip(COLUMNS, map(int, row[1:]))) for row in map(str.split, lines[1 : count + 1])}
        words = {(word, name): list(map(int, numbers)) for word, name, *numbers in map(str.split, lines[count + 1 :]) if word in ("hooks", "keg")}
        for zone in self.zones:
            self.check_zone(zone, rows[zone.name], words["hooks", zone.name], keeps)
        for keg in (zone for zone in self.zones if not zone.of):
            self.check_keg(keg, rows, words["keg", keg.name], keeps)
        last = {line.split()[0]: list(map(int, line.split()[1:])) for line in lines if line.startswith(("clock ", "names "))}
        if self.clock:
            self.check_clock(*last["clock"], keeps)
        if self.names:
            self.check_names(rows["dir"], words, last, keeps)
        return laws

    def shape(self):
        """How each line of the report begins."""
        names = ["dir"] if self.names else []
        kegs = [zone.name for zone in self.zones if not zone.of] + names
        rows = [[zone.name, str(zone.size), str(self.limits[zone.name])] for zone in self.zones] + [[it, "64", "0"] for it in names]
        rows += [["hooks", zone.name] for zone in self.zones] + [["hooks", it] for it in names] + [["keg", it] for it in kegs]
        return [TITLES, *rows, *([["clock"]] if self.clock else []), *([["names"]] if self.names else [])]

    def check_zone(self, zone, row, hooks, keeps):
        inits, ctors, dtors, finis, deferred = hooks
        frees = row["req"] - row["used"]
        keeps(f"{zone.name}: requests are served or refused", row["req"] + row["fail"] == zone.requests)
        keeps(f"{zone.name}: an argument is refused", zone.with_arg <= row["fail"])
        keeps(f"{zone.name}: frees are of what was served", 0 <= zone.frees - frees <= row["fail"])
        keeps(f"{zone.name}: nothing sleeps", row["sleep"] == 0)
        keeps(f"{zone.name}: frees of another domain", row["xdomain"] <= (frees if self.domains > 1 and self.workers > 1 else 0))
        keeps(f"{zone.name}: each served request has a ctor", ctors == row["req"])
        keeps(f"{zone.name}: ctors less dtors are used or deferred", ctors - dtors == row["used"] + deferred)
        keeps(f"{zone.name}: only an SMR free defers", deferred == 0 or zone.kind == "smr")
        keeps(f"{zone.name}: its own inits", finis <= inits if zone.of else inits == finis == 0)

    def check_keg(self, keg, rows, numbers, keeps):
        slabs, free, inits, finis = numbers
        all_items = slabs * keg.per_slab()
        shares = [zone for zone in self.zones if zone is keg or zone.of is keg]
        keeps(f"{keg.name}: slabs", slabs <= keg.slabs)
        keeps(f"{keg.name}: items are used or free", sum(rows[it.name]["used"] + rows[it.name]["free"] for it in shares) == all_items)
        keeps(f"{keg.name}: items at home", free <= rows[keg.name]["free"])
        keeps(f"{keg.name}: inits less finis are items", inits - finis == all_items)

    def check_clock(self, read, write, entered, late, keeps):
        least = self.counts["enter"] + self.counts["look outside"]
        keeps("the hands", read % 2 == write % 2 == 1 and self.start <= read <= write <= read + self.window)
        keeps("sections", least <= entered + late <= least + (self.counts["look"] - self.counts["look outside"]))
        keeps("sections in time", late > 0 or entered == least)
        keeps("late sections", late == 0 or write - self.start >= self.window)

    def check_names(self, row, words, last, keeps):
        looks, hits, misses, late, binds, unbound, refused = last["names"]
        _, ctors, dtors, _, deferred = words["hooks", "dir"]
        slabs, _, inits, finis = words["keg", "dir"]
        keeps("looks", looks == self.counts["look"] == hits + misses + late)
        keeps("late looks", late <= last["clock"][3])
        keeps("binds", binds + refused == self.counts["bind"] == row["req"] + row["fail"])
        keeps("unbinds", unbound <= self.counts["unbind"])
        keeps("refused binds", row["fail"] <= refused and binds <= row["req"])
        keeps("names bound", 0 <= ctors - dtors - deferred <= self.names[0])
        keeps("entries", row["used"] + row["free"] == slabs * 64 == inits - finis and slabs <= self.names[1])


class LooseTrace(Trace):
    """A trace of one worker at a time whose freed buckets often stay loose: the window is small, and a section stays open while
    buckets fill. No schedule changes its table, which plain_model.py works out."""

    def draw_head(self):
        pick, below = self.random.choice, self.random.randrange
        self.version, self.workers, self.domains = 3, pick([1, 1, 1, 2, 4]), pick([1, 2, 2, 4])
        self.start, self.window = pick([1, 1, 3, 4294967291, 4294967295, 4294967295, 2**63 - 1 - 2 * below(30)]), pick([4, 6, 8])
        self.clock, self.names, self.zones = True, None, []
        kind, bucket, limit = lambda: pick(["smr"] * 5 + ["plain"]), lambda: pick([4, 4, 4, 5, 8]), lambda: pick([0] * 8 + [9, 40])
        for place in range(pick([1, 1, 1, 2])):
            size, slabs = pick([(4096, 99), (1024, 40), (1024, 40), (512, 9), (256, 16), (64, 2)])
            primary = Zone(f"z{place}", None, size, slabs, bucket(), limit(), pick([0, 0, 3]), kind())
            self.zones.append(primary)
            for number in range(pick([0, 0, 0, 0, 1, 2])):
                self.zones.append(Zone(f"z{place}s{number}", primary, size, slabs, bucket(), limit(), 0, kind()))
        self.limits = {zone.name: zone.limit for zone in self.zones}
        self.turn, self.slots = 0, 64

    def draw_lines(self):
        """Runs of lines: requests, frees that fill more buckets than the window has room for, a request or a reclaim that looks at them
        and lets the read hand move, and frees. It ends there, since the next look makes up for much that went wrong before."""
        below, pick = self.random.randrange, self.random.choice
        for _ in range(below(1, 4)):
            self.zone, most = pick(self.zones).name, 2 * self.window + below(8, 24)
            yield from self.draw_run(8, most)
            yield from self.draw_run(pick([0, 0, 3]), most - below(16))
            self.zone = pick([self.zone, pick(self.zones).name])
            yield from [f"exit {self.turn}"] * below(2)
            yield from self.draw_run(8, below(6)) if below(3) else [f"{pick(['trim', 'drain', 'drainseat'])} {self.turn} {self.zone}"]
            yield from self.draw_run(0, below(16))

    def draw_run(self, asks, lines):
        self.asks = asks
        for _ in range(lines):
            yield self.draw_line()

    def draw_line(self):
        """A line of the worker whose turn it is."""
        worker, drawn = self.turn, self.random.random
        if self.behind_round and drawn() < 0.4:
            return self.draw_between()
        if str(worker) in self.away and drawn() < 0.9:
            return f"back {worker}"
        if drawn() < 0.03:
            return f"exit {worker}" if str(worker) in self.open else f"enter {worker}"
        if drawn() < 0.03:
            return self.draw_other(worker, self.random.choice(self.zones).name)
        slot, is_held = self.slot(worker, self.random.randrange(8) >= self.asks)
        if is_held:
            return f"free {worker} {slot}"
        more = self.random.choice([""] * 16 + [" arg 7", " reserve", " reserve", " arg 9 reserve"])
        return f"alloc {worker} {self.zone} {slot}{more}"

    def slot(self, worker, wanted):
        """A slot of the worker, and whether it holds anything: that it does, or that it doesn't, is wanted."""
        for _ in range(8):
            slot = self.random.randrange(self.slots)
            is_held = (str(worker), str(slot)) in self.held
            if is_held == wanted:
                break
        return slot, is_held

    def draw_between(self):
        giver, taker = self.random.randrange(self.workers), self.random.randrange(self.workers)
        if self.random.randrange(6):
            return f"give {giver} {self.slot(giver, True)[0]} {taker} {self.slot(taker, False)[0]}"
        return f"setmax {self.zone} {self.random.choice([0, 0, 5, 30])}"

    def draw_other(self, worker, zone):
        word = self.random.choice(["trim", "drain", "drainseat", "prealloc", "away", "round", "round", "round"])
        if word == "round":
            self.turn = self.random.randrange(self.workers)
            return word
        if word == "prealloc":
            return f"prealloc {worker} {zone} {self.random.randrange(9)}"
        return f"{word} {worker}" + (f" {zone}" if word in IN_ZONE else "")
