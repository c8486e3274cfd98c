"""Requests to write a call (the probe's call 34, or 98 in published mode), from a seed: good ones of every operation at every version, and then damaged ones."""
import random
import struct

import hold
import model

CALL = 34
TOP = 2**64 - 1
VERSIONS = [(1, minor) for minor in range(9, 39)] + [(0, 0), (0, 255), (1, 0), (1, 255), (2, 0), (65535, 255)]
PAYLOADS = [0, 1, 7, 8, 9, 32767, 32768, 32769, 65535, 65536, 65537, 100000]
# The operations by their layout; for published mode those that have another one there, and the others together.
ALIKE = list({str(layout): [op for op in model.LAYOUTS if model.LAYOUTS[op] == layout] for layout in model.LAYOUTS.values()}.values())
PUBLISHED = [*([op] for op in model.PUBLISHED), [op for op in model.LAYOUTS if op not in model.PUBLISHED]]
# Characters at the edges of RFC 3629, and what is just beyond them.
EDGES = [chr(x).encode() for x in (0, 0x41, 0x7F, 0x80, 0x7FF, 0x800, 0xD7FF, 0xE000, 0xFFFF, 0x10000, 0x10FFFF)]
BAD = [
    bytes.fromhex(x)
    for x in "80 bf c080 c1bf c2 dfc0 e09fbf e18080c0 e180 eda080 edbfbf f08fbfbf f1808080f1 f18080 f4908080 f5808080 fe ff 41c2 00ff".split()
]


class Wanted:
    """What is to be written, in parts that can be damaged."""

    def __init__(self, dice, is_published, operation, version):
        self.is_published, self.operation, self.version = is_published, operation, version
        self.numbers = [0] * (model.NUMBERS + model.COUNTS)
        self.bytes, self.entries, self.payload = b"", [], b""
        self.flags, self.counts = [], []
        try:
            self.there = model.fields(is_published, operation, version)
        except model.Refused:
            self.there = []
        for what, i in self.there:
            self.fill(dice, what, i)
        # A part of an entry behind the entries; what the number of their bytes is off by; how much of b is there, None for all.
        self.part, self.off, self.length = b"", 0, None

    def fill(self, dice, what, i):
        at = model.place(what, i)
        if what == model.NUMBER:
            self.numbers[at] = dice.choice([0, 1, 2, 3, 255, 2**32, TOP, dice.getrandbits(64)])
        elif what == model.FLAG:
            self.numbers[at] = dice.randrange(2)
            self.flags.append(at)
        elif what == model.STRING:
            self.string(dice)
        elif what in (model.SET, model.PAIRS):
            count = dice.choice([0, 1, 1, 2, 3, 5, 9])
            self.numbers[at] = count
            self.counts.append(at)
            for _ in range(count * (2 if what == model.PAIRS else 1)):
                self.string(dice)
        elif what == model.FRAMED:
            self.payload = dice.randbytes(dice.choice(PAYLOADS) if dice.randrange(2) else dice.randrange(40))

    def string(self, dice):
        """A new string, behind bytes that belong to none, or one that is there already."""
        if self.entries and dice.randrange(6) == 0:
            self.entries.append(dice.choice(self.entries))
            return
        self.bytes += dice.randbytes(dice.randrange(4))
        length = dice.choice([0, 1, 7, 8, 9, 15, 16, 17, 40])
        contents = b"".join(dice.choice(EDGES) if dice.randrange(4) == 0 else b"%c" % dice.randrange(97, 123) for _ in range(length))
        self.entries.append((len(self.bytes), len(contents)))
        self.bytes += contents

    def needed(self):
        """The room for it; some, where it is refused."""
        try:
            return len(model.call(self.request(2**20)))
        except model.Refused:
            return 64

    def b(self):
        entries = b"".join(struct.pack("<QQ", *e) for e in self.entries) + self.part
        length = min(max(len(entries) + self.off, 0), TOP)
        whole = struct.pack("<15QQ", *self.numbers, length) + entries + self.payload
        return whole if self.length is None else whole[: self.length]

    def request(self, room):
        b = self.b()
        number = CALL + hold.PUBLISHED * self.is_published
        head = struct.pack("<7Q", number, self.operation, *self.version, 0, room, len(self.bytes))
        return hold.Request(head + self.bytes + struct.pack("<Q", len(b)) + b)


def absent_number(w, dice):
    taken = {model.place(what, i) for what, i in w.there}
    left = [j for j in range(len(w.numbers)) if j not in taken]
    w.numbers[dice.choice(left)] = dice.choice([1, 2, 2**63, TOP])


def large_flag(w, dice):
    if w.flags:
        w.numbers[dice.choice(w.flags)] = dice.choice([2, 3, 256, 2**32, 2**63, TOP])


def other_count(w, dice):
    if w.counts:
        at = dice.choice(w.counts)
        now = w.numbers[at]
        w.numbers[at] = dice.choice([0, min(now + 1, TOP), max(now - 1, 0), min(now + 2, TOP), 2**62, 2**63 - 1, 2**63, 2**63 + 1, TOP - 1, TOP])


def other_number(w, dice):
    w.numbers[dice.randrange(len(w.numbers))] = dice.choice([0, 1, 2, TOP])


def too_few_entries(w, dice):
    if w.entries:
        last = struct.pack("<QQ", *w.entries.pop(dice.choice([-1, -1, 0])))
        w.part = last[: dice.choice([0, 1, 8, 15])]


def more_entries(w, dice):
    """None of them may be looked at."""
    w.entries += [dice.choice([(0, 0), (TOP, TOP), (0, TOP), (len(w.bytes), 1)]) for _ in range(dice.randrange(3))]
    w.part = dice.randbytes(dice.choice([0, 1, 8, 15]))


def entry_out_of_bytes(w, dice):
    if w.entries:
        end = len(w.bytes)
        out = [(end, 1), (end + 1, 0), (0, end + 1), (TOP, 0), (TOP, 1), (TOP, 2), (1, TOP), (2, TOP), (2**63, 2**63), (0, TOP)]
        w.entries[dice.randrange(len(w.entries))] = dice.choice(out)


def entry_at_the_end(w, dice):
    if w.entries:
        w.entries[dice.randrange(len(w.entries))] = (len(w.bytes), 0)


def bad_text(w, dice):
    if w.entries:
        before = dice.choice([b"", b"a" * dice.randrange(20), "\u00e9".encode()])
        bad = before + dice.choice(BAD)
        w.entries[dice.randrange(len(w.entries))] = (len(w.bytes), len(bad))
        w.bytes += bad + dice.choice([b"", b"\x80"])


def cut_text(w, dice):
    """A character of more than one byte, cut in its midst: or, by chance, not."""
    if w.entries:
        edge = dice.choice(EDGES[3:])
        start, length = dice.choice([(0, len(edge)), (1, len(edge) - 1), (0, len(edge) - 1)])
        w.entries[dice.randrange(len(w.entries))] = (len(w.bytes) + start, length)
        w.bytes += edge


def other_payload(w, dice):
    w.payload = dice.randbytes(dice.choice([0, 1, 1, 8, 40]))


def cut_b(w, dice):
    whole = len(w.b())
    w.length = dice.choice([0, 1, 7, 8, 9, 119, 120, 121, 127, 128, 129, max(whole - 1, 0), dice.randrange(whole + 1)])


def other_entry_bytes(w, dice):
    w.off = dice.choice([-16, -1, 1, 8, 16, 17, 2**32, 2**63, TOP])


def other_version(w, dice):
    w.version = dice.choice(VERSIONS)


def other_operation(w, dice):
    w.operation = dice.choice([*range(60), 2**32 + 1, TOP])


DAMAGES = [
    absent_number,
    large_flag,
    other_count,
    other_number,
    too_few_entries,
    more_entries,
    entry_out_of_bytes,
    entry_at_the_end,
    bad_text,
    cut_text,
    other_payload,
    cut_b,
    other_entry_bytes,
    other_version,
    other_operation,
]


def lent(dice, needed):
    """Exactly enough as a rule, else more, one short, or none."""
    return dice.choice([*[needed] * 6, needed + 1, needed + 33, max(needed - 1, 0), 0])


def damaged(dice, is_published, operations, damages):
    w = Wanted(dice, is_published, dice.choice(operations), dice.choice(VERSIONS))
    for damage in damages:
        damage(w, dice)
    return w.request(lent(dice, w.needed()))


def first(dice, is_published, alike):
    """Every operation at every version, once as it should be; and each layout with each damage, four times."""
    for operation in model.LAYOUTS:
        for version in VERSIONS:
            w = Wanted(dice, is_published, operation, version)
            yield w.request(w.needed())
    for operations in alike:
        for damage in 4 * DAMAGES:
            yield damaged(dice, is_published, operations, [damage])


def requests(seed, count, is_published):
    """The first ones, evenly spread where so few are asked for, and then others by chance."""
    dice = random.Random(seed)
    alike = PUBLISHED if is_published else ALIKE
    table = list(first(dice, is_published, alike))
    few = min(count, len(table))
    yield from (table[i * len(table) // few] for i in range(few))
    for _ in range(count - few):
        damages = [dice.choice(DAMAGES) for _ in range(dice.choice([0, 1, 1, 2, 2, 3]))]
        yield damaged(dice, is_published, dice.choice(alike), damages)
