"""What write_op_args has to answer, by the texts of requests W-201 and W-203 and by document 01's list of arguments. It shares nothing with the library or its definitions."""
import struct

# A field is what it is, which number or count of the record it has, and the version from which it is there.
NUMBER, FLAG, ZERO, STRING, SET, PAIRS, FRAMED = range(7)
NUMBERS, COUNTS = 12, 3
RECORD = 8 * (NUMBERS + COUNTS)
ENTRY = 16
CHUNK = 32768
ALWAYS = (0, 0)

S, F, Z = (STRING, None, ALWAYS), (FRAMED, None, ALWAYS), (ZERO, None, ALWAYS)
SS, P = (SET, 0, ALWAYS), (PAIRS, 0, (1, 12))


def n(i, since=ALWAYS):
    return NUMBER, i, since


def flag(i, since=ALWAYS):
    return FLAG, i, since


LAYOUTS = {
    **dict.fromkeys((1, 6, 10, 11, 12, 18, 21, 22, 26, 28, 29, 33, 38, 41, 42, 43), [S]),
    **dict.fromkeys((30, 32, 40), [SS]),
    31: [SS, flag(0, (1, 27))],
    **dict.fromkeys((9, 46), [SS, n(0)]),
    19: [*map(n, range(10)), n(10, (1, 10)), n(11, (1, 12)), P],
    7: [S, S, SS, flag(0), F],
    44: [flag(0), flag(1), F],
    45: [S, F],
    20: [n(0), SS, n(1), n(2), Z, Z, Z],
    35: [flag(0), flag(1)],
    47: [S, S],
    37: [S, SS],
    8: [S, S, SS],
    **dict.fromkeys((13, 14, 23, 34), []),
    **dict.fromkeys((36, 39), None),
}
# Below this version no arguments are known.
SINCE = {7: (1, 25)}
# What published mode has instead of them.
PUBLISHED = {
    30: lambda version: [(PAIRS, 0, ALWAYS)] if version >= (1, 22) else [SS],
    42: lambda version: [S, S] if version < (1, 31) else [S],
}


class Refused(Exception):
    def __init__(self, number, place=0):
        self.number, self.place = number, place


def fields(is_published, operation, version):
    """The fields that are there."""
    if operation not in LAYOUTS:
        raise Refused(9)
    layout = PUBLISHED[operation](version) if is_published and operation in PUBLISHED else LAYOUTS[operation]
    if layout is None or version < SINCE.get(operation, ALWAYS):
        raise Refused(13)
    return [(what, i) for what, i, since in layout if version >= since]


def parts(b):
    """Record, entries and payload of what the probe has as b."""
    rest = b[RECORD:]
    length, strings = int.from_bytes(rest[:8], "little"), rest[8:]
    return b[:RECORD], strings[:length], strings[length:]


def numbers(record):
    return struct.unpack("<15Q", record.ljust(RECORD, b"\0"))


def place(what, i):
    """Where the record has a field's number, if anywhere."""
    if what in (NUMBER, FLAG):
        return i
    return NUMBERS + i if what in (SET, PAIRS) else None


def is_of_shape(there, record, payload):
    taken = {place(what, i) for what, i in there}
    if any(x != 0 for j, x in enumerate(record) if j not in taken):
        return False
    if payload and F[:2] not in there:
        return False
    return all(record[i] <= 1 for what, i in there if what == FLAG)


def used(there, record, slots):
    """How many strings each field has."""
    left, strings = slots, []
    for what, i in there:
        count = 0 if what not in (SET, PAIRS) else record[place(what, i)]
        strings.append(1 if what == STRING else 2 * count if what == PAIRS else count)
        left -= strings[-1]
        if left < 0:
            raise Refused(11, count)
    return strings


def string(entries, index, a):
    start, length = struct.unpack_from("<QQ", entries, ENTRY * index)
    if start + length > len(a):
        raise Refused(12, index)
    contents = a[start : start + length]
    try:
        # RFC 3629 is what Python's strict decoder takes.
        contents.decode("utf-8")
    except UnicodeDecodeError:
        raise Refused(3, index) from None
    return number(length) + contents + bytes(-length % 8)


def number(x):
    return struct.pack("<Q", x)


def framed(payload):
    chunks = [payload[i : i + CHUNK] for i in range(0, len(payload), CHUNK)]
    return b"".join(number(len(c)) + c for c in chunks) + number(0)


def call(q):
    """The bytes of the arguments."""
    there = fields(q.is_published, q.operation, (q.major, q.minor))
    record, entries, payload = parts(q.b)
    record = numbers(record)
    if not is_of_shape(there, record, payload):
        raise Refused(14)
    strings = used(there, record, len(entries) // ENTRY)
    texts = iter([string(entries, index, q.a) for index in range(sum(strings))])
    out = b""
    for (what, i), count in zip(there, strings):
        if what in (NUMBER, FLAG, SET, PAIRS):
            out += number(record[place(what, i)])
        elif what == ZERO:
            out += number(0)
        elif what == FRAMED:
            out += framed(payload)
        out += b"".join(next(texts) for _ in range(count))
    if len(out) > q.room:
        raise Refused(10)
    return out


def line(q):
    """The refusal's number, 0 for none, and the line that the probe has to write."""
    try:
        out = call(q)
    except Refused as why:
        return why.number, f"no {why.number} {why.place} 0"
    zeros = ",".join("0" * NUMBERS)
    return 0, f"ok kind=0 end={len(out)} end2=0 n={zeros} c=0,0,0 e= p={out.hex()} kept=1"
