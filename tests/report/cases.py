"""The morning report of document 02, M-103: its example byte for byte, and a file for each reading of it, run through the program."""
import hashlib
import os
import subprocess
import sys
import tempfile

HEADING = "label accepted refused top\n"
ONES = bytes([1]) * 16
IDENTITY = bytes([9]) * 32
tried = 0


def block(body):
    body = body + bytes(508 - len(body))
    return body + hashlib.sha256(body).digest()[:4]


def rack(n, first=1):
    return bytes([n]) + b"".join(bytes([first + i]) * 32 for i in range(n))


def rack_block(r):
    return block(b"\x01" + r)


def digest(r):
    return hashlib.sha256(b"\x03" + r).digest()


def statement(r, kind=2, label=ONES, height=7, nonce=bytes(16), identity=IDENTITY):
    tail = bytes(32) if height == 0 else bytes([5]) * 32
    return bytes([kind]) + identity + digest(r) + label + tail + height.to_bytes(8, "big") + (nonce if kind == 3 else b"")


def receipt_body(s, signers, asked=2, label=ONES, nonce=bytes(16), identity=IDENTITY):
    return (bytes([2, asked]) + label + nonce + identity + bytes([len(s)]) + s + bytes(137 - len(s)) + bytes([len(signers)])
            + b"".join(bytes(p) for p in signers))


def receipt(s, signers, **fields):
    return block(receipt_body(s, signers, **fields))


def with_byte(b, at, value):
    """A block with one byte changed and its check made again."""
    return block(b[:at] + bytes([value]) + b[at + 1:508])


def line(label, accepted, refused, top):
    return f"{label.hex()} {accepted} {refused} {top}\n"


def totals(blocks, racks, over, damaged):
    return f"blocks {blocks} racks {racks} over {over} damaged {damaged}\n"


def expect(what, held):
    global tried
    tried += 1
    if not held:
        sys.exit(f"report: not as it must be: {what}")


def run(program, file, what, *parts):
    with tempfile.NamedTemporaryFile() as f:
        f.write(file)
        f.flush()
        named = subprocess.run([program, f.name], capture_output=True)
    piped = subprocess.run([program], input=file, capture_output=True)
    want = (HEADING + "".join(parts)).encode()
    for got in (named, piped):
        expect(what, got.stdout == want and got.returncode == 0 and got.stderr == b"")


def main(program):
    three = rack(3)
    yes = [(0, 3), (1, 3)]
    good = receipt(statement(three), yes)
    run(program, rack_block(three) + good + receipt(statement(three), yes[:1]), "02's example",
        "01010101010101010101010101010101 1 1 7\n", "blocks 3 racks 1 over 0 damaged 0\n")
    run(program, b"", "an empty file", totals(0, 0, 0, 0))
    run(program, good[:511], "a short block", totals(1, 0, 0, 1))
    run(program, rack_block(three) + good + good[:1], "a last short block", line(ONES, 1, 0, 7), totals(3, 1, 0, 1))
    run(program, good, "no rack", line(ONES, 0, 1, "-"), totals(1, 0, 0, 0))

    # a damaged rack unseats none, another rack does
    other = rack_block(rack(3, 7))
    broken = other[:511] + bytes([other[511] ^ 1])
    run(program, rack_block(three) + broken + good, "a damaged rack", line(ONES, 1, 0, 7), totals(3, 1, 0, 1))
    run(program, rack_block(three) + other + good, "another rack", line(ONES, 0, 1, "-"), totals(3, 2, 0, 0))

    # a new ledger at height 0, its nonce a field like another; the nonce of a reading counts
    new = statement(three, kind=1, height=0)
    nonce = bytes([8]) * 16
    run(program, rack_block(three) + receipt(new, yes, asked=1, nonce=nonce), "a new ledger", line(ONES, 1, 0, 0), totals(2, 1, 0, 0))
    read = statement(three, kind=3, height=4, nonce=nonce)
    run(program, rack_block(three) + receipt(read, yes, asked=3, nonce=nonce) + receipt(read, yes, asked=3), "a reading",
        line(ONES, 1, 1, 4), totals(3, 1, 0, 0))

    # the highest height, in any order
    heights = [12, 4294967295, 30]
    run(program, rack_block(three) + b"".join(receipt(statement(three, height=h), yes) for h in heights), "the highest height",
        line(ONES, 3, 0, 4294967295), totals(4, 1, 0, 0))

    # refused, not damaged
    zero = bytes(16)
    refused = {
        "kind 0": receipt(statement(three), yes, asked=0),
        "kind 4": receipt(statement(three), yes, asked=4),
        "kind 6": receipt(statement(three), yes, asked=6),
        "kind 255": receipt(statement(three), yes, asked=255),
        "four signers of three": receipt(statement(three), [(0, 3), (1, 3), (2, 3), (3, 3)]),
        "a signer twice": receipt(statement(three), [(0, 3), (0, 3)]),
        "marks over 3": receipt(statement(three), [(0, 3), (1, 7)]),
        "not attested": receipt(statement(three), [(0, 3), (1, 2)]),
        "not signed": receipt(statement(three), [(0, 3), (1, 1)]),
        "no statement": receipt(b"", yes),
        "120 bytes": receipt(statement(three)[:120], yes),
        "137 bytes of kind 2": receipt(statement(three) + bytes(16), yes),
        "another identity": receipt(statement(three, identity=bytes(32)), yes),
        "another rack": receipt(statement(rack(5)), yes),
    }
    for what, b in refused.items():
        run(program, rack_block(three) + b, what, line(ONES, 0, 1, "-"), totals(2, 1, 0, 0))
    run(program, rack_block(three) + receipt(statement(three, label=zero), yes, label=zero), "a label of zeros", line(zero, 0, 1, "-"),
        totals(2, 1, 0, 0))

    # damaged: each unused byte, lengths, counts, types, racks, checks
    last = receipt(statement(three), yes)
    long = receipt(read, yes, asked=3, nonce=nonce)
    damaged = {
        "behind the rack": with_byte(rack_block(three), 2 + 96, 1),
        "before the rack's check": with_byte(rack_block(three), 507, 1),
        "behind the statement": with_byte(last, 67 + 121, 1),
        "the statement's last place": with_byte(last, 203, 1),
        "behind the pairs": with_byte(last, 205 + 4, 1),
        "the last pair": with_byte(last, 234, 1),
        "behind all pairs": with_byte(last, 235, 1),
        "before the check": with_byte(last, 507, 1),
        "138 bytes": with_byte(long, 66, 138),
        "255 bytes": with_byte(long, 66, 255),
        "16 signers": with_byte(last, 204, 16),
        "type 0": with_byte(last, 0, 0),
        "type 3": with_byte(last, 0, 3),
        "zeros": bytes(512),
        "a rack of none": rack_block(b"\x00"),
        "a rack of 16": block(b"\x01" + rack(16)[:507]),
        "keys that fall": rack_block(bytes([2]) + bytes([2]) * 32 + bytes([1]) * 32),
        "a bad check": last[:508] + bytes(4),
    }
    for what, b in damaged.items():
        run(program, rack_block(three) + b + good, what, line(ONES, 1, 0, 7), totals(3, 1, 0, 1))
    run(program, rack_block(rack(15)) + receipt(statement(rack(15)), [(i, 3) for i in range(15)]), "fifteen keys and signers", line(ONES, 1, 0, 7),
        totals(2, 1, 0, 0))
    run(program, rack_block(rack(2)) + receipt(statement(rack(2)), yes), "a rack of two", line(ONES, 1, 0, 7), totals(2, 1, 0, 0))

    # from the 64th label on only over, with and without a rack; known labels go on
    labels = [bytes([i, 255 - i]) * 8 for i in range(70)]
    rows = [receipt(statement(three, label=l, height=1), yes, label=l) for l in labels]
    lines = [line(l, 1, 0, 1) for l in labels[:63]]
    run(program, rack_block(three) + b"".join(rows), "70 labels", *lines, totals(71, 1, 7, 0))
    lines[5] = line(labels[5], 2, 0, 1)
    lines[62] = line(labels[62], 2, 0, 1)
    run(program, rack_block(three) + b"".join(rows) + rows[62] + rows[69] + rows[5], "known labels go on", *lines, totals(74, 1, 8, 0))
    run(program, b"".join(rows), "70 labels without a rack", *[line(l, 0, 1, "-") for l in labels[:63]], totals(70, 0, 7, 0))
    run(program, rack_block(three) + rows[9] + rows[3] + rows[9], "the order of first appearance", line(labels[9], 2, 0, 1), line(labels[3], 1, 0, 1),
        totals(4, 1, 0, 0))

    # more than one piece, and a boundary of pieces
    for n in (126, 127, 128, 129, 1000):
        run(program, rack_block(three) + good * n, f"{n} receipts", line(ONES, n, 0, 7), totals(n + 1, 1, 0, 0))
        run(program, rack_block(three) + good * n + b"\0", f"{n} receipts and a byte", line(ONES, n, 0, 7), totals(n + 2, 1, 0, 1))

    # what cannot be read
    with tempfile.TemporaryDirectory() as folder:
        for words in ([os.path.join(folder, "none")], [folder], ["one", "two"]):
            got = subprocess.run([program, *words], capture_output=True)
            expect(f"{words}", got.returncode == 2 and got.stdout == b"" and got.stderr.count(b"\n") == 1)
    with open("/dev/full", "wb") as full:
        got = subprocess.run([program, "/dev/null"], stdout=full, stderr=subprocess.PIPE)
        expect("a full disk", got.returncode == 2 and got.stderr.count(b"\n") == 1)
    print(f"report: {tried} runs of the morning report, 02's example byte for byte among them")


main(sys.argv[1])
