"""Holds what the probe says of a request against what nix-wire says of it."""
import struct

NAMES = {
    1: "read_op_args", 2: "skip_op_args", 3: "read_daemon_result", 4: "skip_daemon_result",
    5: "read_stderr_loop", 6: "read_stderr_with_error", 7: "parse_handshake", 8: "parse_daemon_handshake",
    9: "read_u64", 10: "read_u32", 11: "read_bytes", 12: "read_string", 13: "skip_string",
    14: "read_string_set", 15: "skip_string_set", 16: "read_framed", 17: "skip_framed", 18: "peek_u64",
    20: "write_u64", 21: "write_u32", 22: "write_bytes", 23: "write_string", 24: "write_string_set",
    26: "mode text", 27: "N paths", 28: "N overrides",
    30: "extract_store_path", 31: "op_has_client_framed_data", 33: "version from wire",
}
# From here on a number is that of the call with a number as much lower, in published mode; there is room for as many calls in each mode.
PUBLISHED = 64
TAKES_SLOTS = {1, 3, 6, 7, 8, 14}
TAKES_ROOM = {1, 3, 16}
WRITES = {20, 21, 22, 23, 24, 26, 27, 28}


class Request:
    def __init__(self, raw):
        self.raw = raw
        self.number, self.operation, self.major, self.minor, self.slots, self.room, a = struct.unpack_from("<7Q", raw)
        self.is_published = PUBLISHED <= self.number < 2 * PUBLISHED
        self.call = self.number - PUBLISHED * self.is_published
        self.a, self.b = raw[56:56 + a], raw[64 + a:]


def requests(data):
    """The requests of a file, one after the other."""
    at = 0
    while at < len(data):
        a, = struct.unpack_from("<Q", data, at + 48)
        b, = struct.unpack_from("<Q", data, at + 56 + a)
        end = at + 64 + a + b
        yield Request(data[at:end])
        at = end


def fields(line):
    return dict(word.split("=", 1) for word in line.split(" ")[1:])


def entries(word):
    return [tuple(map(int, entry.split(":"))) for entry in word.split(",")] if word else []


def strings(q, said):
    """The strings that the probe's entries point at, each of which stands behind its length."""
    found = []
    for i, (start, length) in enumerate(entries(said["e"])):
        is_client = q.call != 8 and (q.call != 7 or i < int(said["c"].split(",")[0]))
        stream = q.a if is_client else q.b
        if start < 8 or start + length > len(stream) or stream[start - 8:start] != struct.pack("<Q", length):
            raise ValueError("an entry is out of place")
        found.append(stream[start:start + length].hex())
    return found


def texts(q, said):
    """The same, where nix-wire answers a text that the port has as kind and number."""
    number = said["n"].split(",")[0]
    worded = {"1": "", "3": f"{number} paths", "4": f"{number} overrides"}
    if q.call == 2 and said["kind"] in worded and not said["e"]:
        return [worded[said["kind"]].encode().hex()]
    return strings(q, said)


def shortage(q, rust):
    """The refusals of which one is due for want of slots or room."""
    due = set()
    if q.call in TAKES_SLOTS and rust["t"].count(",") > q.slots:
        due.add("4")
    if q.call in TAKES_ROOM and len(rust["p"]) // 2 > q.room:
        due.add("5")
    if q.call in WRITES and len(rust["p"]) // 2 > q.room:
        due.add("10")
    return due


def is_refusal(line):
    words = line.split(" ")
    return len(words) == 4 and words[0] == "no" and all(word.isdigit() for word in words[1:])


def same(q, rust, said):
    """Are both answers one?"""
    if any(rust[name] != said[name] for name in ("kind", "end", "end2", "n", "c", "p")):
        return False
    return rust["t"].split(",")[:-1] == texts(q, said)


def judge(q, rust_line, line):
    """'same', 'refused', 'short' (of slots or room), 'out' or 'DIFFERENT'."""
    is_ours_fine = line.startswith("ok ") and line.endswith(" kept=1")
    if not is_ours_fine and not is_refusal(line):
        return "DIFFERENT"
    if rust_line == "out":
        return "out"
    if rust_line == "no":
        return "DIFFERENT" if is_ours_fine else "refused"
    if is_refusal(rust_line):
        # of an error block in published mode number and place are known
        return "DIFFERENT" if line != rust_line else "short" if line.startswith("no 4 ") else "refused"
    if not rust_line.startswith("ok "):
        return "DIFFERENT"
    rust = fields(rust_line)
    due = shortage(q, rust)
    if due:
        return "short" if not is_ours_fine and line.split(" ")[1] in due else "DIFFERENT"
    try:
        return "same" if is_ours_fine and same(q, rust, fields(line)) else "DIFFERENT"
    except (KeyError, ValueError, struct.error):
        return "DIFFERENT"
