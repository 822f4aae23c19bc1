"""Reads the logs that tools/record writes. docs/RECORDING.md has their form."""

import array
import os
import struct
import sys

MAGIC = b"umarecrd"
VERSION = 1
HEADER_BYTES = 4096
WORD_BYTES = 8
# The kinds of a word.
SIZE, MALLOC, CALLOC, REALLOC, ALIGNED_ALLOC, MEMALIGN, POSIX_MEMALIGN, VALLOC, FREE, REALLOC_FREES, REALLOC_KEEPS = range(1, 12)
REQUESTS = range(MALLOC, FREE)
# Words that are read at once.
PIECE = 1 << 17


class BadLog(Exception):
    """Why a file is no log that can be read."""


class Log:
    """A log whose header is read and whose length is as it says."""

    def __init__(self, path):
        self.path = path
        # Words that were taken and not written: their calls were under way when the program was killed.
        self.unwritten = 0
        try:
            self.file = open(path, "rb")
            size = os.fstat(self.file.fileno()).st_size
            header = self.file.read(HEADER_BYTES)
        except OSError as why:
            raise BadLog(f"{path}: {why.strerror}") from None
        if header[: len(MAGIC)] != MAGIC:
            raise BadLog(f"{path}: is no log of tools/record" if header else f"{path}: is empty")
        if len(header) < HEADER_BYTES:
            raise BadLog(f"{path}: is cut in its header")
        version, room = struct.unpack_from("<QQ", header, 8)
        if version != VERSION:
            raise BadLog(f"{path}: is of version {version}, and this reads version {VERSION}")
        taken, self.threads, self.lost = *struct.unpack_from("<Q", header, 64), *struct.unpack_from("<QQ", header, 128)
        self.words = min(taken, room)
        there = (size - HEADER_BYTES) // WORD_BYTES
        if there < self.words:
            raise BadLog(f"{path}: is cut: it has {there} of {self.words} words")

    def pieces(self):
        """The words, as arrays."""
        self.file.seek(HEADER_BYTES)
        left = self.words
        while left:
            words = array.array("Q")
            words.fromfile(self.file, min(PIECE, left))
            if sys.byteorder == "big":
                words.byteswap()
            left -= len(words)
            yield words

    def records(self):
        """Each record in order: its kind, thread, address, and for a request the size."""
        size, self.unwritten, at = None, 0, 0
        for words in self.pieces():
            for word in words:
                kind = word & 15
                if kind == SIZE and size is None:
                    size = word >> 4
                elif FREE <= kind <= REALLOC_KEEPS and size is None:
                    yield kind, word >> 4 & 0x7FFF, word >> 19, 0
                elif MALLOC <= kind <= VALLOC and size is not None:
                    yield kind, word >> 4 & 0x7FFF, word >> 19, size
                    size = None
                elif kind == 0:
                    self.unwritten += 1
                    size = None
                else:
                    raise BadLog(f"{self.path}: word {at + words.index(word)} has the kind {kind}, which no record has there")
            at += len(words)


def write(path, records, threads=1):
    """Writes a log of these records, for tests."""
    words = array.array("Q")
    for kind, thread, address, size in records:
        if kind in REQUESTS:
            words.append(size << 4 | SIZE)
        words.append(address << 19 | thread << 4 | kind)
    header = bytearray(HEADER_BYTES)
    header[:8] = MAGIC
    struct.pack_into("<QQ", header, 8, VERSION, 1 << 32)
    struct.pack_into("<Q", header, 64, len(words))
    struct.pack_into("<Q", header, 128, threads)
    with open(path, "wb") as file:
        file.write(header + words.tobytes())
