"""Chooses sizes of zones for the sizes that a program asked for."""

import bisect

STEP = 8
MOST_SIZE = 4096


def rounded(size):
    """The least size of an item that serves: a multiple of 8, and at least 8."""
    return max(STEP, -(-size // STEP) * STEP)


def least_waste(counts, most):
    """At most so many sizes, rising, out of the rounded sizes asked for, that waste the fewest bytes over all requests. A request takes the
    least of the sizes that serves it. `counts` has how often each size was asked for."""
    by_size = {}
    for size, count in counts.items():
        by_size[rounded(size)] = by_size.get(rounded(size), 0) + count
    sizes = sorted(by_size)
    if len(sizes) <= most:
        return sizes
    # Requests, and their bytes, of the sizes before each place.
    before, bytes_before = [0], [0]
    for size in sizes:
        before.append(before[-1] + by_size[size])
        bytes_before.append(bytes_before[-1] + by_size[size] * size)
    # The waste where the sizes before each place are served by one class, then by one more each turn, and where the last class begins.
    waste = [size * before[at + 1] - bytes_before[at + 1] for at, size in enumerate(sizes)]
    starts = []
    for _ in range(most - 1):
        turn = [(waste[0], 0)]
        for at in range(1, len(sizes)):
            turn.append(one_more(sizes, before, bytes_before, waste, at, turn[-1][1]))
        waste = [found for found, _ in turn]
        starts.append([start for _, start in turn])
    chosen, at = [sizes[-1]], len(sizes) - 1
    for turn in reversed(starts):
        at = turn[at] - 1
        if at < 0:
            break
        chosen.append(sizes[at])
    return chosen[::-1]


def one_more(sizes, before, bytes_before, waste, last, least):
    """The least waste up to this size with one class more than `waste` has, and where that class begins; at 0 it is the only one. It begins
    no earlier than that of the size before."""
    size, count, all_bytes = sizes[last], before[last + 1], bytes_before[last + 1]
    best = size * count - all_bytes, 0
    for start in range(max(1, least), last + 1):
        found = waste[start - 1] + size * (count - before[start]) - (all_bytes - bytes_before[start])
        if found < best[0]:
            best = found, start
    return best


class Classes:
    """The sizes of the zones, and which of them serves a request."""

    def __init__(self, counts, most):
        self.sizes = least_waste(counts, most)

    def of(self, size):
        """The place of the class that serves, or None where the size is too large."""
        place = bisect.bisect_left(self.sizes, size)
        return place if place < len(self.sizes) else None

    def waste(self, counts):
        """Bytes that the items have beyond what was asked for, and the bytes of the items."""
        items = sum(self.sizes[self.of(size)] * count for size, count in counts.items())
        return items - sum(size * count for size, count in counts.items()), items
