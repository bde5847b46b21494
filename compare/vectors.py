"""Holds mahqurith_sha256, Python's hashlib and NIST's files of SHA-256 vectors together."""
import argparse
import ctypes
import hashlib
import pathlib
import sys

from compare import ACCEPTED, DIGEST, load

MESSAGES = {"SHA256ShortMsg.rsp": 65, "SHA256LongMsg.rsp": 64}  # how many vectors each file has
MONTE = "SHA256Monte.rsp"
COUNTS = 100
LINKS = 1000  # digests of a chain, each made of the three before it


class Broken(Exception):
    """A file is not as NIST published it."""


def library(function):
    """The library's hash, from bytes to bytes; no digest where it refuses."""
    def digest(message):
        area = ctypes.create_string_buffer(DIGEST)
        status = function(message, len(message), area)
        return area.raw if status == ACCEPTED else None
    return digest


def python(message):
    return hashlib.sha256(message).digest()


def fields(path):
    """Name and value of each line that has both."""
    for line in path.read_text(encoding="ascii").splitlines():
        if line and not line.startswith(("#", "[")):
            name, equals, value = line.partition(" = ")
            if not equals:
                raise Broken(f"{path.name}: no field: {line[:40]}")
            yield name, value


def in_groups(path, found, *names):
    """The values of fields that come in groups of these names."""
    while found:
        group, found = found[:len(names)], found[len(names):]
        if tuple(name for name, _ in group) != names:
            raise Broken(f"{path.name}: {names} expected, {group[0][0]} found")
        yield [value for _, value in group]


def messages(path):
    """Each message of a file, and its digest."""
    for length, message, digest in in_groups(path, list(fields(path)), "Len", "Msg", "MD"):
        bits = int(length)
        whole = bytes.fromhex(message) if bits else b""  # the message of no bits stands as `00`
        if 8 * len(whole) != bits:
            raise Broken(f"{path.name}: a message of {8 * len(whole)} bits where Len = {bits}")
        yield whole, bytes.fromhex(digest)


def monte(path):
    """The seed, and the digests in which the chains end."""
    (name, seed), *rest = fields(path)
    ends = list(in_groups(path, rest, "COUNT", "MD"))
    if name != "Seed" or [int(count) for count, _ in ends] != list(range(COUNTS)):
        raise Broken(f"{path.name}: not a seed and {COUNTS} counts")
    return bytes.fromhex(seed), [bytes.fromhex(end) for _, end in ends]


def chain_end(digest, seed):
    """The last digest of a chain, or none where one was refused."""
    first = second = third = seed
    for _ in range(LINKS):
        if third is None:
            return None
        first, second, third = second, third, digest(first + second + third)
    return third


def shown(digest):
    return digest.hex() if digest else "refused"


class Tally:
    """The vectors of one file: how many were held together, and how many differ."""
    def __init__(self, path):
        self.name = path.name
        self.ran = 0
        self.differed = 0

    def hold(self, what, expected, ours, theirs):
        """Counts one vector; the file, the library and hashlib must say the same."""
        self.ran += 1
        if ours == theirs == expected:
            return
        self.differed += 1
        print(f"DIFFERENT: {self.name}, {what}")
        for who, digest in ("file", expected), ("library", ours), ("hashlib", theirs):
            print(f"    {who + ':':8} {shown(digest)}")

    def closed(self):
        print(f"  {self.name}: {self.ran} compared, {self.differed} differ")
        return self.differed


def run_messages(digest, path, count):
    """How many vectors differ."""
    found = list(messages(path))
    if len(found) != count:
        raise Broken(f"{path.name}: {len(found)} vectors where there are {count}")
    tally = Tally(path)
    for message, expected in found:
        tally.hold(f"{len(message)} bytes", expected, digest(message), python(message))
    return tally.closed()


def run_monte(digest, path):
    """How many vectors differ. Each program goes on from its own digest, also where the file has another."""
    seed, ends = monte(path)
    tally = Tally(path)
    ours = theirs = seed
    for count, expected in enumerate(ends):
        ours, theirs = chain_end(digest, ours), chain_end(python, theirs)
        tally.hold(f"COUNT = {count}", expected, ours, theirs)
    return tally.closed()


def arguments():
    parser = argparse.ArgumentParser(description=__doc__)
    parser.add_argument("library", help="a shared object that exports mahqurith_sha256")
    parser.add_argument("data", type=pathlib.Path, help="the folder of NIST's files")
    return parser.parse_args()


def main():
    asked = arguments()
    print("compare: mahqurith_sha256, hashlib and NIST's files")
    digest = library(load(asked.library))
    differed = sum(run_messages(digest, asked.data / name, count) for name, count in MESSAGES.items())
    differed += run_monte(digest, asked.data / MONTE)
    return 1 if differed else 0


if __name__ == "__main__":
    try:
        sys.exit(main())
    except (Broken, OSError, ValueError) as fault:
        sys.exit(f"compare: {fault}")
