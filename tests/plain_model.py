"""A plain model of zones for one worker at a time: the table of a trace, worked out from the rules of docs/MODEL.md.

`table` replays a trace in whose rounds one worker alone does anything, and returns the text that `umarun replay` prints of it. It knows
zones, secondary zones, the clock and every line of a trace but those of names. It is written from the rules, without the program's
queues, locks, notes and tokens: an inbox is a list, and an item is its number. So where it and the program disagree, one has a rule wrong.

Where the rules leave a choice, it has the program's. An item is of the slab of least index among the partly used ones, else among the
free ones. A fetch fills the allocation bucket that is there; a bucket that is taken from a list replaces it, and it becomes a spare where
there is room for one.
"""

TITLES = "ITEM              SIZE    LIMIT     USED     FREE        REQ     FAIL SLEEP  XDOMAIN"
MOST_HAND = 2**63 - 1


class Clock:
    """The clock: the read and the write hand, and the mark of each worker that is in a section."""

    def __init__(self, start, window):
        self.read = self.write = start
        self.window = window
        self.words = {}
        self.entered = 0

    def enter(self, worker):
        self.words[worker] = self.write % 2**32
        self.entered += 1

    def exit(self, worker):
        del self.words[worker]

    def advance(self):
        """The tag of a new goal; None where the write hand is at its end, or a window above the read hand."""
        goal = self.write + 2
        if goal > MOST_HAND or goal - self.read > self.window:
            return None
        self.write = goal
        return goal % 2**32

    def reading(self, low):
        """The number at or below the write hand, by less than 2^31, whose low half this is, if there is one."""
        below = (self.write - low) % 2**32
        return self.write - below if below < 2**31 and below <= self.write else None

    def poll(self, tag):
        """Whether no section is open that began before this goal. The read hand moves as far as the open sections let it."""
        goal = self.reading(tag)
        if goal is None or goal <= self.read:
            return True
        marks = [mark for mark in map(self.reading, self.words.values()) if mark is not None]
        self.read = min([self.write, *(max(mark, self.read) for mark in marks)])
        return goal <= self.read


class Bucket:
    """Items, the last put on top. In an SMR zone they are freed ones; it is loose until an advance gave it a tag."""

    def __init__(self, items, domain, smr):
        self.items, self.domain = items, domain
        self.is_loose, self.tag = smr, None

    def try_to_seal(self, clock):
        if self.is_loose:
            self.tag = clock.advance()
            self.is_loose = self.tag is None

    def is_ripe(self, clock):
        """Whether its items may be handed out: plain ones always, freed ones after a poll that says yes."""
        return not self.is_loose and (self.tag is None or clock.poll(self.tag))


class Domain:
    """What one zone has in one memory domain: the inbox, and the lists, each oldest first."""

    def __init__(self, clock):
        self.clock = clock
        self.inbox, self.loose, self.ready = [], [], []
        self.count = self.least = self.greatest = 0

    def seal_loose(self):
        """Each loose bucket of the list tries once to be sealed, oldest first; one that is becomes the newest sealed one."""
        for bucket in self.loose:
            bucket.try_to_seal(self.clock)
        self.ready += [bucket for bucket in self.loose if not bucket.is_loose]
        self.loose = [bucket for bucket in self.loose if bucket.is_loose]

    def settle(self):
        """Lists what the inbox has, each as the newest of its kind; then each loose bucket tries."""
        for bucket in self.inbox:
            (self.loose if bucket.is_loose else self.ready).append(bucket)
            self.counted(len(bucket.items))
        self.inbox = []
        self.seal_loose()

    def counted(self, more):
        self.count += more
        self.least, self.greatest = min(self.least, self.count), max(self.greatest, self.count)

    def take(self, bucket):
        self.ready.remove(bucket)
        self.counted(-len(bucket.items))
        return bucket

    def look(self, smr):
        """The newest plain bucket, or the oldest sealed one whose poll says yes, is taken."""
        for bucket in self.ready if smr else self.ready[::-1]:
            if bucket.is_ripe(self.clock):
                return self.take(bucket)
        return None

    def take_all(self):
        return [self.take(bucket) for bucket in self.ready[:] if bucket.is_ripe(self.clock)]

    def take_trim(self):
        """Takes from the oldest on, and stops before the first without which less than the working set is left."""
        working, taken = self.greatest - self.least, []
        for bucket in self.ready[:]:
            if self.count - len(bucket.items) < working:
                break
            if bucket.is_ripe(self.clock):
                taken.append(self.take(bucket))
        self.least = self.greatest = self.count
        return taken


class Keg:
    """Slabs by index: the domain of each, and its free places."""

    def __init__(self, name, size, most, reserve):
        self.name, self.most, self.reserve = name, most, reserve
        self.per_slab = min(256, 4096 // size)
        self.domains, self.places = {}, {}
        self.free = self.inits = self.finis = 0

    def bring(self, domain):
        """A slab comes in; False where there are as many as may be."""
        if len(self.places) == self.most:
            return False
        index = min(set(range(self.most)) - set(self.places))
        self.domains[index], self.places[index] = domain, set(range(self.per_slab))
        self.free += self.per_slab
        self.inits += self.per_slab
        return True

    def take(self):
        """An item: the least place of a partly used slab, or where there is none of a free one."""
        index = min((len(free) == self.per_slab, index) for index, free in self.places.items() if free)[1]
        place = min(self.places[index])
        self.places[index].remove(place)
        self.free -= 1
        return index * self.per_slab + place

    def give(self, item):
        self.places[item // self.per_slab].add(item % self.per_slab)
        self.free += 1

    def domain_of(self, item):
        return self.domains[item // self.per_slab]

    def free_slabs(self):
        """Gives up free slabs, the greatest index first, as long as the reserve stays."""
        for index in sorted(self.places, reverse=True):
            if len(self.places[index]) == self.per_slab and self.free - self.per_slab >= self.reserve:
                del self.places[index]
                self.free -= self.per_slab
                self.finis += self.per_slab

    def fetch(self, most, may_use_reserve, room, domain):
        """The items that a fetch gets; none where it is refused. `room` is what the limit leaves; None is no limit."""
        if room is not None and room <= 0:
            return []
        while self.free <= self.reserve and self.bring(domain):
            pass
        if self.free <= self.reserve:
            return [self.take()] if may_use_reserve and self.free else []
        counts = [most, self.free - self.reserve] + ([] if room is None else [room])
        return [self.take() for _ in range(min(counts))]


class Zone:
    """A zone over a keg: its domains, and the counts of its line. `out` is what is outside the keg, `deferred` what waits for dtor."""

    def __init__(self, name, size, keg, clock, domains, bucket, limit, smr, is_second):
        self.name, self.size, self.keg, self.clock, self.bucket = name, size, keg, clock, bucket
        self.limit, self.smr, self.is_second = limit, smr, is_second
        self.domains = [Domain(clock) for _ in range(domains)]
        self.out = self.deferred = self.served = self.fails = self.frees = self.cross = 0
        self.inits = self.ctors = self.dtors = self.finis = 0

    def fetch(self, may_use_reserve, domain):
        room = self.limit - self.out if self.limit else None
        items = self.keg.fetch(self.bucket, may_use_reserve, room, domain)
        self.out += len(items)
        self.inits += len(items) if self.is_second else 0
        return items

    def give(self, items):
        """Items go back to the keg."""
        for item in items:
            self.keg.give(item)
        self.out -= len(items)
        self.finis += len(items) if self.is_second else 0

    def opened(self, bucket):
        """The items of a bucket that was taken from a list; freed ones pass dtor."""
        if self.smr:
            self.deferred -= len(bucket.items)
            self.dtors += len(bucket.items)
        return bucket.items

    def lines(self):
        used = self.served - self.frees
        free = (0 if self.is_second else self.keg.free) + self.out - used
        row = f"{self.name:16} {self.size:5} {self.limit:8} {used:8} {free:8} {self.served:10} {self.fails:8} {0:5} {self.cross:8}"
        return row, f"hooks {self.name} {self.inits} {self.ctors} {self.dtors} {self.finis} {self.deferred}"


class Seat:
    """One worker's cache in a zone. `filling` has the free bucket, that of the seat's own domain, and the cross buckets."""

    def __init__(self, zone, domain):
        self.zone, self.domain = zone, domain
        self.allocation, self.filling = [], [[] for _ in zone.domains]
        self.spare, self.shelf = 2, []

    def flush(self):
        """Each loose bucket of the shelf tries once to be sealed, then each in the list of the seat's own domain, oldest first; then
        the shelf goes to the inboxes."""
        for bucket in self.shelf:
            bucket.try_to_seal(self.zone.clock)
        self.zone.domains[self.domain].seal_loose()
        for bucket in self.shelf:
            self.zone.domains[bucket.domain].inbox.append(bucket)
        self.shelf = []

    def make_room(self):
        self.flush()
        self.spare = 2

    def alloc(self, arg, may_use_reserve):
        """An item, or None where the request is refused."""
        if not self.has_usable() and not self.fill(may_use_reserve):
            self.zone.fails += 1
            return None
        if arg:
            # The constructor refuses; the item stays in the bucket.
            self.zone.fails += 1
            return None
        self.zone.served += 1
        self.zone.ctors += 1
        return self.allocation.pop()

    def has_usable(self):
        """Whether an item is at hand. In a plain zone an empty allocation bucket is exchanged with the free bucket."""
        if not self.allocation and not self.zone.smr:
            self.allocation, self.filling[self.domain] = self.filling[self.domain], self.allocation
        return bool(self.allocation)

    def fill(self, may_use_reserve):
        """Fills the allocation bucket from the lists of the seat's own domain, or else from the keg; False where that refuses."""
        self.flush()
        domain = self.zone.domains[self.domain]
        domain.settle()
        bucket = domain.look(self.zone.smr)
        if bucket:
            self.allocation, self.spare = self.zone.opened(bucket), min(2, self.spare + 1)
        else:
            self.allocation = self.zone.fetch(may_use_reserve, self.domain)
        return bool(self.allocation)

    def free(self, item):
        """Frees an item; a freed one of an SMR zone waits for dtor. A bucket that is full tries to be sealed, and goes on the shelf."""
        if self.spare == 0:
            self.make_room()
        zone, of = self.zone, self.zone.keg.domain_of(item)
        zone.frees += 1
        zone.cross += of != self.domain
        zone.deferred += zone.smr
        zone.dtors += not zone.smr
        self.filling[of].append(item)
        if len(self.filling[of]) == zone.bucket:
            full = Bucket(self.filling[of], of, zone.smr)
            full.try_to_seal(zone.clock)
            self.shelf.append(full)
            self.filling[of] = []
            self.spare -= 1

    def reclaim(self, word):
        """`trim`, `drain` or `drainseat`."""
        zone = self.zone
        self.flush()
        for domain in zone.domains:
            domain.settle()
        for domain in zone.domains:
            for bucket in domain.take_trim() if word == "trim" else domain.take_all():
                zone.give(zone.opened(bucket))
        if word == "drainseat":
            self.empty()
        if word != "trim":
            zone.keg.free_slabs()

    def empty(self):
        """Gives back what isn't deferred."""
        for items in [self.allocation, *([] if self.zone.smr else self.filling)]:
            self.zone.give(items)
            items.clear()


class Replay:
    """A replay of a trace, line by line."""

    def __init__(self):
        self.kegs, self.zones, self.seats, self.slots = {}, {}, {}, {}
        self.clock, self.has_clock, self.has_detail = Clock(1, 1024), False, False

    def do(self, word, *fields):
        if word in ("zone", "second"):
            self.open_zone(word, *fields)
        elif word == "clock":
            self.clock, self.has_clock = Clock(*map(int, fields)), True
        elif word == "detail":
            self.has_detail = True
        elif word in ("workers", "domains"):
            setattr(self, word, int(fields[0]))
        elif word == "setmax":
            self.zones[fields[0]].limit = int(fields[1])
        elif word == "alloc":
            self.alloc(*fields)
        elif word == "free":
            self.free(*fields)
        elif word == "give":
            self.slots[fields[2], fields[3]] = self.slots.pop((fields[0], fields[1]))
        elif word in ("enter", "exit"):
            (self.clock.enter if word == "enter" else self.clock.exit)(int(fields[0]))
        elif word in ("trim", "drain", "drainseat"):
            self.seat(*fields).reclaim(word)
        elif word == "prealloc":
            self.prealloc(*fields)
        # A worker that is away has no section, so `away` and `back` change nothing here; nor do the others.
        elif word not in ("uma", "round", "away", "back", "end"):
            raise ValueError(word)

    def open_zone(self, word, name, *fields):
        if word == "zone":
            size, slabs, bucket, limit, reserve = map(int, fields[:5])
            keg = self.kegs[name] = Keg(name, size, slabs, reserve)
        else:
            first = self.zones[fields[0]]
            size, keg, bucket, limit = first.size, first.keg, int(fields[1]), int(fields[2])
        self.zones[name] = Zone(name, size, keg, self.clock, self.domains, bucket, limit, fields[-1] == "smr", word == "second")

    def seat(self, worker, name):
        """The worker's seat in a zone. A new one is empty, so it may be made at its first use."""
        if (worker, name) not in self.seats:
            self.seats[worker, name] = Seat(self.zones[name], int(worker) % self.domains)
        return self.seats[worker, name]

    def alloc(self, worker, name, slot, *more):
        arg = int(more[1]) if more[:1] == ("arg",) else 0
        seat = self.seat(worker, name)
        self.slots[worker, slot] = name, seat.alloc(arg, "reserve" in more)

    def free(self, worker, slot):
        name, item = self.slots.pop((worker, slot))
        if item is not None:
            self.seat(worker, name).free(item)

    def prealloc(self, worker, name, items):
        keg = self.zones[name].keg
        for _ in range(-(-int(items) // keg.per_slab)):
            if not keg.bring(int(worker) % self.domains):
                break

    def text(self):
        rows, hooks = zip(*(zone.lines() for zone in self.zones.values())) if self.zones else ((), ())
        lines = [TITLES, *rows]
        if self.has_detail:
            lines += hooks
            lines += [f"keg {keg.name} {len(keg.places)} {keg.free} {keg.inits} {keg.finis}" for keg in self.kegs.values()]
        if self.has_clock:
            lines.append(f"clock {self.clock.read} {self.clock.write} {self.clock.entered} 0")
        return "\n".join([*lines, ""]).encode()


def table(trace):
    """The table of a trace."""
    replay = Replay()
    for line in trace.decode().splitlines():
        fields = line.split()
        if fields and not fields[0].startswith("#"):
            replay.do(*fields)
    return replay.text()
