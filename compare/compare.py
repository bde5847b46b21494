"""Compares mahqurith_sha256 with Python's hashlib, on random messages."""
import argparse
import ctypes
import hashlib
import mmap
import random
import sys

LIMIT = 65_536
ACCEPTED, TOO_LONG = 0, 25
DIGEST = 32
GUARD = 64  # bytes on each side of the message and of the digest area, which must stay as they are
ALIGNMENTS = 16
FILLED = 1 << 20  # of a longer message only this much is random, and the rest zeros
SHOWN = 10  # differences printed; the others are only counted
MAP_NORESERVE = 0x4000  # Linux's; Python names it from 3.13 on

EVERY_LENGTH = range(301)
# Padding goes by the length modulo 64: 0x80 and the bit count still fit after 55 bytes, and not after 56.
NEAR_MULTIPLES = [
    multiple + distance
    for multiple in range(64, LIMIT + 1, 64)
    for distance in (-10, -9, -8, -7, -1, 0, 1)
    if multiple + distance <= LIMIT
]
# Most of these would be short enough if the length were cut to 16 or to 32 bits.
REFUSED = [LIMIT + 1, LIMIT + 2, LIMIT + 55, LIMIT + 56, LIMIT + 63, LIMIT + 64, 2 * LIMIT - 1, 2 * LIMIT,
           2 * LIMIT + 1, 1_000_000, 2**31, 2**32 - 1, 2**32, 2**32 + 3, 2**32 + LIMIT]


def load(path):
    function = ctypes.CDLL(path).mahqurith_sha256
    function.argtypes = [ctypes.c_void_p, ctypes.c_size_t, ctypes.c_void_p]
    function.restype = ctypes.c_uint32
    return function


def large_memory():
    """Room for the longest message; a page of it takes memory only once it is touched."""
    flags = mmap.MAP_PRIVATE | mmap.MAP_ANONYMOUS | MAP_NORESERVE
    return mmap.mmap(-1, max(REFUSED) + 2 * GUARD + ALIGNMENTS, flags=flags)


def right_outcome(message, length, area):
    """The status, and what the digest area, which holds `area`, must hold after the call."""
    if length > LIMIT:
        return TOO_LONG, area
    return ACCEPTED, hashlib.sha256(message).digest()


class Comparison:
    def __init__(self, function, seed):
        self.function = function
        self.seed = seed
        self.random = random.Random(seed)
        self.memory = large_memory()
        self.address = ctypes.addressof(ctypes.c_char.from_buffer(self.memory))
        self.ran = 0
        self.differed = 0

    def run(self, what, lengths, null=False):
        """Compares on a message of each length, and prints one line."""
        ran, differed = self.ran, self.differed
        for length in lengths:
            self.compare(length, null)
        print(f"  {what}: {self.ran - ran:,} compared, {self.differed - differed:,} differ")

    def compare(self, length, null):
        """Calls the library once, with both areas at random alignments, and compares all that it may have changed."""
        around = self.random.randbytes(GUARD + min(length, FILLED) + GUARD)
        at = self.random.randrange(ALIGNMENTS)
        self.memory[at:at + len(around)] = around
        start = GUARD + self.random.randrange(ALIGNMENTS)
        end = start + DIGEST
        before = self.random.randbytes(end + GUARD)
        area = ctypes.create_string_buffer(before, len(before))

        message = None if null else self.address + at + GUARD
        status = self.function(message, length, ctypes.byref(area, start))

        after = area.raw
        given = status, after[start:end]
        right = right_outcome(around[GUARD:-GUARD], length, before[start:end])
        changed = []
        if after[:start] != before[:start] or after[end:] != before[end:]:
            changed.append("bytes beside the digest area")
        if self.memory[at:at + len(around)] != around:
            changed.append("the message, or bytes beside it")
        self.count(length, given, right, changed)

    def count(self, length, given, right, changed):
        self.ran += 1
        if given == right and not changed:
            return
        self.differed += 1
        if self.differed > SHOWN:
            return
        print(f"DIFFERENT: seed {self.seed}, message {self.ran}, length {length}")
        for who, (status, digest) in ("library", given), ("right", right):
            print(f"    {who + ':':8} status {status}, digest area {digest.hex()}")
        for what in changed:
            print(f"    changed: {what}")


def random_lengths(chosen, count):
    """Short ones and long ones: the limit of each is random too, from 64 bytes up."""
    return [chosen.randint(0, LIMIT >> chosen.randrange(11)) for _ in range(count)]


def arguments():
    parser = argparse.ArgumentParser(description=__doc__)
    parser.add_argument("library", help="a shared object that exports mahqurith_sha256")
    parser.add_argument("seed", type=int, nargs="?", default=1804, help="what all messages are made from")
    parser.add_argument("count", type=int, nargs="?", default=5000, help="how many messages have a random length")
    return parser.parse_args()


def main():
    asked = arguments()
    print(f"compare: mahqurith_sha256 against hashlib, seed {asked.seed}")
    comparison = Comparison(load(asked.library), asked.seed)
    comparison.run("no message area, length 0", [0], null=True)
    comparison.run("each length from 0 to 300", EVERY_LENGTH)
    comparison.run(f"lengths around each multiple of 64 to {LIMIT:,}", NEAR_MULTIPLES)
    comparison.run(f"lengths over {LIMIT:,}, to be refused", REFUSED)
    comparison.run("random lengths", random_lengths(comparison.random, asked.count))
    print(f"compare: {comparison.ran:,} compared, {comparison.differed:,} differ")
    return 1 if comparison.differed else 0


if __name__ == "__main__":
    sys.exit(main())
