"""Makes a trace of records: threads become workers, sizes zones, and each request and free a line. docs/RECORDING.md says how.

No request is refused for want of slabs, whatever the schedule of the workers is. Two bounds on the items of a zone outside its keg hold, and
the lesser decides. A seat fetches no more items than it asks for, and less than a bucket besides. And where a worker fetches from the keg, its
domain has no full bucket that it may use: so all items are live, or in the seats, each of which has at most six buckets of a domain's items, or
in an SMR zone they were freed in this round, since a section may be open on them no longer.
"""

from record_log import FREE, REALLOC, REALLOC_FREES, REALLOC_KEEPS, REQUESTS

MOST_TEXT = 16 << 20
HEAD_TEXT = 4096
MOST_SLABS = 1024
SLAB_BYTES = 4096
SLOTS = 65536
# A round ends behind so many lines, where there is more than one worker, or where so many blocks wait for the worker that frees them.
ROUND_LINES = 4096
MOST_WAITING = 256
# With SMR zones a worker is in a section for so many of its lines, and then for as many in none.
SECTION_LINES = 16
BUCKETS_OF_A_SEAT = 6
# Why something is cut.
SIZES, NO_SLOT, NO_SLAB, END = "size", "slot", "slab", "end"


class Zone:
    """A zone, with how many of its items each worker has, at most had in this round, are freed in it, and wait for its end."""

    def __init__(self, size, workers, domains, limit, smr):
        self.size, self.name, self.limit, self.smr = size, f"malloc-{size}", limit, smr
        self.workers, self.domains = workers, domains
        self.per_slab = min(256, SLAB_BYTES // size)
        self.bucket = max(4, min(64, 16384 // size))
        self.requests = self.frees = self.waiting = self.live = self.peaks = self.needed = 0
        self.own, self.peak = [0] * workers, [0] * workers
        self.asks = False
        # What the seats of all workers may hold, of each domain; what they may fetch beyond what they ask for; and the bounds that follow.
        self.in_seats = BUCKETS_OF_A_SEAT * workers * self.bucket
        self.left_over = workers * (self.bucket - 1)
        most = (MOST_SLABS - 1) * self.per_slab
        self.most_requests, self.most_live = most - self.left_over, most // domains - self.in_seats

    def outside(self):
        """How many items may be outside the keg at most in this round."""
        of_live = self.domains * (self.peaks + (self.frees if self.smr else 0) + self.in_seats)
        return min(self.requests + self.left_over, of_live)

    def fits(self, requests, peaks, frees):
        """Whether that is as many as there may be slabs for."""
        return requests <= self.most_requests or peaks + (frees if self.smr else 0) <= self.most_live

    def may_ask(self, worker):
        return self.fits(self.requests + 1, self.peaks + (self.own[worker] == self.peak[worker]), self.frees)

    def may_ask_after_rounds(self):
        """Whether that helps: a round ends the wait of blocks, and the next one has fewer live."""
        return self.fits(self.requests + 1, self.live - self.waiting + 1, 0)

    def may_free(self):
        return not self.asks or self.fits(self.requests, self.peaks, self.frees + 1)

    def ask(self, worker):
        self.requests += 1
        self.asks = True
        self.gain(worker)

    def gain(self, worker):
        self.live += 1
        self.own[worker] += 1
        if self.own[worker] > self.peak[worker]:
            self.peak[worker] += 1
            self.peaks += 1

    def lose(self, worker):
        self.live -= 1
        self.own[worker] -= 1

    def end_round(self):
        if self.asks:
            self.needed = max(self.needed, self.outside())
        self.peak, self.peaks = self.own[:], self.live
        self.frees, self.waiting, self.asks = 0, 0, False

    def line(self):
        slabs = min(MOST_SLABS, self.needed // self.per_slab + 1)
        return f"zone {self.name} {self.size} {slabs} {self.bucket} {self.limit} 0 {'smr' if self.smr else 'plain'}"


class Slots:
    """The slots of a worker that nothing is in; the one that was emptied last comes first."""

    def __init__(self):
        self.emptied, self.next = [], 0

    def take(self):
        if self.emptied:
            return self.emptied.pop()
        if self.next == SLOTS:
            return None
        self.next += 1
        return self.next - 1


class Cut:
    """What isn't in the trace, for one cause."""

    def __init__(self):
        self.requests = self.bytes = self.frees = 0


class TraceMaker:
    """Takes records in order, and has the lines of their trace. `workers` says of each thread which worker it is."""

    def __init__(self, classes, workers, most_lines, limits, smr):
        self.classes, self.workers, self.smr, self.most_lines = classes, workers, smr, most_lines
        self.count = max(workers.values(), default=0) + 1
        self.domains = min(2, self.count)
        self.zones = [Zone(size, self.count, self.domains, limits.get(size, 0), smr) for size in classes.sizes]
        self.slots = [Slots() for _ in range(self.count)]
        self.lines, self.text, self.round_began = [], HEAD_TEXT, 0
        # The slot, worker and zone of each block by its address, or why it was cut.
        self.blocks, self.moving = {}, {}
        # Blocks that another worker frees: giver, slot, taker, zone.
        self.waiting = []
        self.of_section, self.open = [0] * self.count, [False] * self.count
        self.full = False
        self.cut = {cause: Cut() for cause in (SIZES, NO_SLOT, NO_SLAB, END)}
        self.requests = self.bytes = self.frees = self.given = 0
        self.failed = self.of_null = self.unknown = self.twice = self.kept = 0

    # Lines.

    def put(self, line):
        self.lines.append(line)
        self.text += len(line) + 1

    def has_room(self):
        """Whether a record's lines fit, with all that is then still to be written: at most a round, a give and a free of each block that
        waits, and the end of each section."""
        lines = 3 * len(self.waiting) + 3 * self.count + 8
        return len(self.lines) + lines <= self.most_lines and self.text + 40 * lines <= MOST_TEXT

    def begin_line(self, worker):
        """Opens and closes sections, where the zones are of the SMR kind."""
        if not self.smr:
            return
        if self.of_section[worker] % SECTION_LINES == 0:
            self.put(f"{'exit' if self.open[worker] else 'enter'} {worker}")
            self.open[worker] = not self.open[worker]
        self.of_section[worker] += 1

    def end_sections(self):
        for worker in range(self.count):
            if self.open[worker]:
                self.put(f"exit {worker}")
            self.open[worker], self.of_section[worker] = False, 0

    def end_round(self):
        """Ends the round, and moves each block that waits to the worker that frees it. One that has no empty slot leaves that to the giver."""
        self.end_sections()
        self.put("round")
        self.round_began = len(self.lines)
        frees = []
        for giver, slot, taker, zone in self.waiting:
            other = self.slots[taker].take()
            if other is None:
                frees.append((giver, slot, zone))
                continue
            self.put(f"give {giver} {slot} {taker} {other}")
            self.slots[giver].emptied.append(slot)
            zone.lose(giver)
            zone.gain(taker)
            self.given += 1
            frees.append((taker, other, zone))
        self.waiting = []
        for zone in self.zones:
            zone.end_round()
        for worker, slot, zone in frees:
            self.put_free(worker, slot, zone)

    def put_free(self, worker, slot, zone):
        self.begin_line(worker)
        self.put(f"free {worker} {slot}")
        self.slots[worker].emptied.append(slot)
        zone.lose(worker)
        zone.frees += 1
        self.frees += 1

    # Records.

    def take(self, kind, thread, address, size):
        """Takes a record. The free of a realloc waits for what its call says at the end."""
        worker = self.workers.get(thread, self.count - 1)
        if kind in REQUESTS:
            if kind == REALLOC and thread in self.moving:
                self.free(worker, self.moving.pop(thread))
            self.request(worker, address, size)
        elif kind == FREE:
            if address == 0:
                self.of_null += 1
            else:
                self.free(worker, self.blocks.pop(address, None))
        elif kind == REALLOC_FREES:
            self.moving[thread] = self.blocks.pop(address, None)
        elif kind == REALLOC_KEEPS:
            self.kept += 1
            block = self.moving.pop(thread, None)
            if block is not None:
                self.blocks[address] = block

    def request(self, worker, address, size):
        if address == 0:
            self.failed += 1
            return
        if address in self.blocks:
            self.twice += 1
            self.free_missed(self.blocks.pop(address))
        cause = self.alloc(worker, address, size)
        if cause:
            self.blocks[address] = cause
            self.cut[cause].requests += 1
            self.cut[cause].bytes += size
        else:
            self.requests += 1
            self.bytes += size

    def alloc(self, worker, address, size):
        """Puts the line of a request, or says why it is cut."""
        if self.full or not self.has_room():
            self.full = True
            return END
        place = self.classes.of(size)
        if place is None:
            return SIZES
        zone = self.zones[place]
        if not zone.may_ask(worker) and not self.make_room(worker, zone):
            return NO_SLAB
        slot = self.slots[worker].take()
        if slot is None:
            return NO_SLOT
        self.begin_line(worker)
        self.put(f"alloc {worker} {zone.name} {slot}")
        zone.ask(worker)
        self.blocks[address] = worker, slot, zone
        self.end_long_round()
        return None

    def make_room(self, worker, zone):
        """Ends rounds until the zone has room for one more item whatever the schedule is."""
        for _ in range(2):
            if zone.may_ask_after_rounds() and self.has_room():
                self.end_round()
            if zone.may_ask(worker):
                return True
        return False

    def free_missed(self, block):
        """Frees a block whose free the log hasn't: its address was handed out again."""
        if not isinstance(block, str) and not self.full:
            self.free(block[0], block)

    def free(self, worker, block):
        """Puts the line of a free, or has the block wait for the end of the round, where another worker has it."""
        if block is None:
            self.unknown += 1
        elif isinstance(block, str):
            self.cut[block].frees += 1
        elif self.full or not self.has_room():
            self.full = True
            self.cut[END].frees += 1
        else:
            owner, slot, zone = block
            if owner != worker:
                self.waiting.append((owner, slot, worker, zone))
                zone.waiting += 1
            else:
                if not zone.may_free():
                    self.end_round()
                self.put_free(worker, slot, zone)
            self.end_long_round()

    def end_long_round(self):
        long = len(self.lines) - self.round_began >= ROUND_LINES and (self.count > 1 or self.smr)
        if (long or len(self.waiting) >= MOST_WAITING) and self.has_room():
            self.end_round()

    def end(self):
        """Ends the trace: what still waits is freed, and a realloc that the log doesn't end has moved nothing."""
        if self.waiting:
            self.end_round()
        self.end_sections()
        for zone in self.zones:
            zone.end_round()

    def trace(self):
        clock = ["clock 1 1073741824"] if self.smr else []
        head = ["uma 1", f"workers {self.count}", f"domains {self.domains}", *clock, *(zone.line() for zone in self.zones)]
        return "\n".join([*head, *self.lines, "end", ""])

    def held(self):
        """Blocks of the trace that nobody freed."""
        return sum(zone.live for zone in self.zones)
