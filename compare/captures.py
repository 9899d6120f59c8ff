"""captures.py BASE DIR: captures that no maker of a signal makes: faulty ones, ones that end early, and contents at their limits. BASE is
a good capture. A capture NAME.cap with NAME.owed beside it has these lines by document 01 and its readings, whatever the model says.

captures.py pieces FILE: the file on standard output in odd pieces, so that reads are short.
"""
import os
import random
import struct
import sys
import time

SLOT = 9296
CONTENTS, WORDS, TABLE = 33, 96, 2048


def contents(lengths, count=4, kinds=(1, 2, 3, 4)):
    return bytes([count]) + b"".join(struct.pack("<B3xI", kind, n) for kind, n in zip(kinds, lengths))


def points_body(bits, k, entries=None):
    pairs = entries or [724, 724, -724, -724] * (1 << bits >> 1)
    return struct.pack(f"<B{len(pairs)}hI", bits, *pairs, k)


class Captures:
    def __init__(self, base, to):
        self.to = to
        lengths = struct.unpack("<xxxxxIxxxxIxxxxIxxxxI", base[:CONTENTS])
        bodies, at = [], CONTENTS
        for n in lengths:
            bodies.append(base[at : at + n])
            at += n
        self.words, self.table, self.points = bodies[:3]
        self.made = set()

    def put(self, name, capture, owed=None):
        assert name not in self.made, name
        self.made.add(name)
        with open(f"{self.to}/{name}.cap", "wb") as file:
            file.write(capture)
        if owed is not None:
            with open(f"{self.to}/{name}.owed", "w") as file:
                file.write(owed)

    def whole(self, symbols=bytes(4), words=None, table=None, points=None):
        bodies = [words or self.words, table or self.table, points or self.points, symbols]
        return contents([len(body) for body in bodies]) + b"".join(bodies)

    def refused(self, name, number, capture):
        self.put(name, capture, f"refused {number}\n")


def ends(c):
    """Ends early: after each body, inside each, after an odd byte; and bytes that follow."""
    good = c.whole()
    assert len(good) == CONTENTS + WORDS + TABLE + 13 + 4
    c.put("two-symbols", good, "end 2\n")
    for n in (0, 1, 8, 9, 32):
        c.refused(f"contents-of-{n}", 11, good[:n])
    after = CONTENTS
    c.refused("no-bodies", 12, good[:after])
    for name, length in (("words", WORDS), ("table", TABLE), ("points", 13)):
        for n in (1, length - 1):
            c.refused(f"{name}-end-after-{n}", 12, good[: after + n])
        after += length
        c.refused(f"end-after-{name}", 12, good[:after])
    for n in (1, 2, 3):
        c.refused(f"symbols-end-after-{n}", 12, good[: after + n])
    for n in (1, 2, 5000):
        c.refused(f"{n}-bytes-follow", 12, good + bytes(n))
    c.put("no-symbols", c.whole(b""), "end 0\n")
    c.refused("no-symbols-and-a-byte", 12, c.whole(b"") + b"\0")
    most = contents([WORDS, TABLE, 13, 2**32 - 2]) + good[CONTENTS:]
    c.refused("most-symbols-declared", 12, most)
    c.refused("most-symbols-and-an-odd-byte", 12, most + b"\1")


def block_ends(c):
    """Ends within 4 bytes of the blocks that the program reads, at every width: exactly as declared, a byte or more over, cut short."""
    seeded = random.Random(65536)
    for bits in (1, 2, 3, 4, 5):
        points = points_body(bits, 0)
        header = CONTENTS + WORDS + TABLE + len(points)
        for end in (65536, 131072):
            for off in range(-4, 5):
                length = end + off - header
                for name, declared in (("whole", length - length % 2), ("short", length + 2 - length % 2)):
                    before = contents([WORDS, TABLE, len(points), declared]) + c.words + c.table + points
                    # zero symbols print a period of zeros for each 9,296 complete windows
                    periods = (min(length, declared) // 2 - 23) // SLOT
                    last = f"end {declared // 2}" if length == declared else "refused 12"
                    owed = "period 0 0 0 0\n" * periods + last + "\n"
                    c.put(f"zeros-{bits}-{end}{off:+}-{name}", before + bytes(length), owed)
                    if off % 2 == 0:
                        c.put(f"noise-{bits}-{end}{off:+}-{name}", before + seeded.randbytes(length))


def wrong_contents(c):
    good = c.whole()
    for n in (0, 3, 5, 255):
        c.refused(f"count-{n}", 11, bytes([n]) + good[1:])
    for place in range(1, CONTENTS):
        if (place - 1) % 8 < 4:
            for flip in (1, 128):
                wrong = bytearray(good)
                wrong[place] ^= flip
                c.refused(f"contents-byte-{place}-flip-{flip}", 11, bytes(wrong))
    lengths = [WORDS, TABLE, 13, 4]
    for entry, others in enumerate(
        (
            (0, 48, 95, 97, 96 + 256, 96 + 2**16, 96 + 2**24),
            (0, 1024, 2047, 2049, 2048 + 2**16, 2**31 + 2048),
            (0, 5, 9, 12, 14, 20, 22, 36, 38, 68, 70, 132, 134, 261, 13 + 256, 37 + 2**24),
            (1, 3, 5, 2**31 + 1, 2**32 - 1),
        )
    ):
        for n in others:
            wrong = lengths[:entry] + [n] + lengths[entry + 1 :]
            c.refused(f"length-{entry + 1}-{n}", 11, contents(wrong) + good[CONTENTS:])
    c.refused("kinds-exchanged", 11, contents([TABLE, WORDS, 13, 4], kinds=(2, 1, 3, 4)) + good[CONTENTS:])
    # contents first: an odd length with its bytes there, and a wrong word
    bad_word = b"\0" + c.words[1:]
    c.refused("odd-length-and-its-bytes", 11, contents([WORDS, TABLE, 13, 3]) + good[CONTENTS:-1])
    c.refused("odd-length-and-a-wrong-word", 11, contents([WORDS, TABLE, 13, 3]) + bad_word + good[CONTENTS + WORDS : -1])


def wrong_bodies(c):
    for place, value in [(k, 0) for k in range(WORDS)] + [(0, 2), (47, 254), (48, 3), (95, 128), (50, 127), (7, 16)]:
        wrong = bytearray(c.words)
        wrong[place] = value
        c.refused(f"word-entry-{place}-{value}", 2, c.whole(words=bytes(wrong)))
    bad = c.whole(words=b"\0" + c.words[1:])
    c.refused("wrong-word-then-end-in-table", 2, bad[: CONTENTS + WORDS + 100])
    c.refused("wrong-word-then-nothing", 2, bad[: CONTENTS + WORDS])
    c.refused("wrong-word-but-end-in-words", 12, bad[: CONTENTS + 50])
    c.refused("wrong-word-and-wrong-points", 2, c.whole(words=b"\0" + c.words[1:], points=points_body(1, 2**24 + 1)))
    for bits in range(1, 6):
        own = 5 + (4 << bits)
        for length in (13, 21, 37, 69, 133):
            body = (points_body(bits, 0) + bytes(200))[:length]
            capture = c.whole(points=body)
            if own == length:
                c.put(f"bits-{bits}-length-{length}", capture, "end 2\n")
            else:
                c.refused(f"bits-{bits}-length-{length}", 4, capture)
    for bits in (0, 6, 7, 33, 128, 255):
        for length in (13, 133):
            c.refused(f"bits-{bits}-length-{length}", 4, c.whole(points=bytes([bits]) + bytes(length - 1)))
    cut = contents([WORDS, TABLE, 21, 4]) + c.words + c.table
    c.refused("bits-1-length-21-cut", 12, cut + bytes([1]) + bytes(19))
    c.refused("bits-1-length-21-and-no-more", 4, cut + bytes([1]) + bytes(20))
    too_much = points_body(1, 2**24 + 1)
    c.refused("k-over", 5, c.whole(points=too_much))
    c.refused("k-most", 5, c.whole(points=points_body(3, 2**32 - 1)))
    c.refused("k-over-and-bits-2", 4, c.whole(points=b"\2" + too_much[1:]))
    c.refused("k-over-then-nothing", 5, c.whole(b"", points=too_much) + b"1")
    c.refused("k-over-cut", 12, c.whole(points=too_much)[: CONTENTS + WORDS + TABLE + 12])
    for k in (0, 1, 2**24):
        c.put(f"k-{k}", c.whole(points=points_body(1, k)), "end 2\n")


def limits(c):
    """Symbols that lock nothing, words and tables of any contents."""
    ones, bpsk = b"\1" * WORDS, points_body(1, 0)
    flat = struct.pack("<1024h", *[32767] * 1024)
    # document 01's example, and one symbol less
    c.put("zeros", c.whole(bytes(2 * 9319), ones, flat, bpsk), "period 0 0 0 0\nend 9319\n")
    c.put("zeros-less-one", c.whole(bytes(2 * 9318), ones, flat, bpsk), "end 9318\n")
    c.put("zeros-cut", c.whole(bytes(2 * 9319), ones, flat, bpsk)[:-1], "refused 12\n")
    c.put("zeros-and-a-byte", c.whole(bytes(2 * 9319), ones, flat, bpsk) + b"\0", "period 0 0 0 0\nrefused 12\n")
    # the table leaves symbols as they are; size 8 at one position locks, and silence then loses at once
    still = struct.pack("<1024h", 2048, *[0] * 1023)
    for name, places in (("least-size", (0, 8, 16, 23)), ("under-least-size", (0, 8, 16))):
        slot = bytearray(2 * SLOT)
        for place in places:
            slot[2 * place] = slot[2 * place + 1] = 1
        c.put(name, c.whole(bytes(2 * 40) + bytes(slot) * 7 + bytes(2 * SLOT * 12), ones, still, bpsk))
    made = random.Random(5)
    for n, bits in enumerate((1, 2, 3, 4, 5, 1)):
        words = bytes(made.choice((1, 255)) for _ in range(WORDS))
        pairs = [made.choice((-32768, 32767, made.randrange(-32768, 32768))) for _ in range(2 << bits)]
        points = points_body(bits, made.choice((1, 5000, 2**24)), pairs)
        table = made.randbytes(TABLE)
        # the same random slot again and again: it locks, on whatever the table makes of it
        slot = made.randbytes(2 * SLOT) if n < 5 else bytes(made.choice((127, 128)) for _ in range(2 * SLOT))
        head = b"".join(bytes((127 if w == 1 else 129) for w in words[48 * (k % 2) : 48 * (k % 2) + 48]) for k in range(2))
        quiet = bytes((b + 128 & 255) // 16 - 8 & 255 for b in slot[48:])
        slots = b"".join(head[48 * (k % 2) : 48 * (k % 2) + 48] + quiet for k in range(8))
        c.put(f"random-{n}", c.whole(slot * 6, words, table, points))
        c.put(f"random-words-{n}", c.whole(slots, words, None, points))
        c.put(f"random-words-table-{n}", c.whole(slots, words, table, points))
    c.put("least-values", c.whole(b"\x80" * (2 * SLOT * 6), b"\xff" * WORDS, struct.pack("<1024h", *[-32768] * 1024), bpsk))


def pieces(name):
    """Pieces of 1 to 4,099 bytes; the first ones, which hold the header, one by one."""
    with open(name, "rb") as file:
        rest = memoryview(file.read())
    turn = 0
    while rest:
        size = (1, 7, 25, 3, 64, 33, 1021, 5, 1, 999)[turn] if turn < 10 else 1 + 683 * (turn % 7)
        try:
            os.write(1, rest[:size])
        except BrokenPipeError:
            # a refusal need not read on
            return
        rest = rest[size:]
        if turn < 60:
            time.sleep(0.002)
        turn += 1


def main():
    if sys.argv[1] == "pieces":
        return pieces(sys.argv[2])
    with open(sys.argv[1], "rb") as file:
        c = Captures(file.read(), sys.argv[2])
    for make in (ends, block_ends, wrong_contents, wrong_bodies, limits):
        make(c)


if __name__ == "__main__":
    main()
