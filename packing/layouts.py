"""What the claims of crates/table/specs/Claims.antt ask of the packed tables, under which names, and the tables that make the claims hold."""
import itertools
import re

from packing.antt import Con, Fault, apply, load, sides, spine, within

CLAIMS = "crates/table/specs/Claims.antt"
OPERATIONS = "crates/layouts/specs/Operations.antt"

# the columns of a row: the claim's names and the struct's
LAYOUTS = {"arguments": "arguments", "skips": "skipped", "reply": "reply"}
ANSWERS = {"arguments_kind": "arguments_kind", "skipped_kind": "skipped_kind", "reply_kind": "reply_kind"}

# the types of kinds, each with the definition of its numbers; and what an answer has that is of no kind
NUMBERINGS = {"ArgumentsKind": "arguments_number", "ReplyKind": "reply_number", "SkippedKind": "skipped_number"}
NONE = "NONE"


# ---- what is claimed


def rows_wanted(claim):
    """The right side of `rows_say` or `published_say`."""
    claims = load(CLAIMS)
    rows = claims.compute(sides(claims.types[claim])[1], {})
    numbers = [row["code"] for row in rows]
    if len(set(numbers)) < len(numbers):
        raise Fault(f"two operations of {claim} have one number", OPERATIONS)
    return rows


def named_place(side, value):
    """The name in `groups_at name`, somewhere in a side of a claim, and the groups that the other side has there."""
    function, arguments = spine(side)
    if function == "groups_at":
        return arguments[0].split(".")[-1], value
    parts = zip(arguments, getattr(value, "args", ()))
    return next((found for side, value in parts if (found := named_place(side, value))), None)


def others_wanted():
    """The layouts outside of the table of operations, by the names that `Others` has for their places."""
    claims, others = load(CLAIMS), {}
    for field, _, *words in claims.records["Others"]:
        where = f"{CLAIMS}: {field}"
        left, right = within(where, sides, words)
        found = named_place(right, within(where, claims.compute, left, {}))
        if not found or others.setdefault(*found) != found[1]:
            raise Fault("it names no place by `groups_at`, or one that has another layout", where)
    return others


# ---- names


def constant(name):
    """a_number becomes A_NUMBER, and SinglePath SINGLE_PATH."""
    return re.sub(r"(?<=[a-z0-9])(?=[A-Z])", "_", name).upper()


def once(items):
    return (Con("once", (items,)),)


def layout_names(rows, published, others):
    """Each layout of an operation: the name of the definition that it is, or else of the first operation that has it."""
    names = {(): "NO_GROUPS", once(()): "NO_FIELDS"}
    taken = {constant(name) for name in others}
    definitions = load(OPERATIONS)
    for name, words in definitions.types.items():
        if words in (["List", "Gated"], ["List", "Group"]) and constant(name) not in taken:
            value = definitions.value(name)
            names.setdefault(once(value) if words[1] == "Gated" else value, constant(name))
    for mode, own in (("", rows), ("PUBLISHED_", published)):
        for row in own:
            for column, field in LAYOUTS.items():
                names.setdefault(row[column], f"{mode}{constant(field)}_{row['code']}")
    return names


def kind_name(kind):
    """A kind that a version or a flag decides is named as it is decided."""
    if kind.name == "just":
        return constant(kind.args[0].args[0].name) if kind.args[0] else NONE
    *version, yes, no = kind.args
    return f"{f'FROM_{version[0]}' if version else 'IF_THERE'}_{kind_name(yes)}_ELSE_{kind_name(no)}"


def number_of(numbering, kind):
    """The number of a constructor, by the definition that gives its type's."""
    number = apply(load(OPERATIONS).defined(numbering), kind)
    return within(f"{OPERATIONS}: {numbering}", fitting, kind.name, number, FIRST_CODE)


def just_number(kind):
    """The number of a kind that nothing decides."""
    numbered = kind.args[0]
    return number_of(numbered.name, numbered.args[0]) if numbered else 0


def all_kinds():
    """Each kind with its number."""
    yield NONE, 0
    for name, data in load(OPERATIONS).constructors.items():
        if data in NUMBERINGS:
            yield constant(name), number_of(NUMBERINGS[data], Con(name, ()))


# document 01's letters, for comments
LETTERS = {
    ("num", "dropped"): "n",
    ("num", "as_number"): "N",
    ("num", "as_flag"): "flag",
    ("str", "passed"): "s",
    ("str", "checked"): "S without entry",
    ("str", "kept"): "S",
    ("set", "passed"): "s*",
    ("set", "kept"): "S*",
    ("pairs", "passed"): "p",
    ("pairs", "kept"): "P",
    ("framed",): "F",
    ("maybe",): "flag with n",
    ("typed",): "typed",
    ("position",): "position",
}


def known(table, name):
    if name not in table:
        raise Fault(f"the packed form has nothing for {name}: packing/layouts.py and what reads the tables have to learn it")
    return table[name]


def letters_of(items):
    parts = []
    for gate, same in itertools.groupby(items, lambda item: (item.name, *item.args[:-1])):
        whats = [item.args[-1] for item in same]
        letters = " ".join(known(LETTERS, (what.name, *(arg.name for arg in what.args[:1]))) for what in whats)
        parts.append(letters if gate[0] == "always" else f"{gate[0]} 1.{gate[1]} {letters}")
    return ", ".join(parts) or "nothing"


def shape_of(groups):
    words = {"once": "", "opt": "flag, if true ", "many": "count of "}
    return ", ".join(known(words, group.name) + letters_of(group.args[-1]) for group in groups) or "nothing"


# ---- packing: the numbers are those that crates/table/specs/Table.antt takes apart

GATES = {"always": 0, "from": 1, "below": 2}
WHATS = {"num": 1, "str": 2, "set": 3, "pairs": 4, "framed": 5, "maybe": 6, "typed": 7, "position": 8}
ROLES = {"passed": 0, "checked": 1, "kept": 2}
GROUPS = {"once": 1, "opt": 2, "many": 3}
# the first of them, and how many the record has
TARGETS = {"dropped": (0, 1), "as_number": (1, 12), "as_flag": (13, 12), "as_count": (25, 3), "as_presence": (28, 1)}
# from here on a number is no kind but the code of one that is decided
FIRST_CODE = 32


def fitting(what, number, room):
    if not 0 <= number < room:
        raise Fault(f"{what} is {number}, and there is room for those below {room}")
    return number


def joined(*parts):
    """Numbers side by side in one, the lowest first: what each is, its value, the room that it has."""
    total, unit = 0, 1
    for what, number, room in parts:
        total, unit = total + unit * fitting(what, number, room), unit * room
    return total


def target_of(target):
    first, room = known(TARGETS, target.name)
    return first + fitting(target.name, sum(target.args), room)


def field_code(item):
    what = item.args[-1]
    role = sum(ROLES[arg.name] for arg in what.args if arg.name in ROLES)
    target = sum(target_of(arg) for arg in what.args if arg.name in TARGETS)
    minor = sum(item.args[:-1])
    return joined(("a kind", known(WHATS, what.name), 16), ("a role", role, 4), ("a target", target, 64), ("a gate", known(GATES, item.name), 4), ("a minor version", minor, 256))


class Sequences:
    """Sequences of numbers, each ended by 0. One that stands there already, or as the end of another, is not put there again."""

    def __init__(self):
        self.numbers, self.begun = [], {}

    def place(self, numbers, text):
        numbers = [*numbers, 0]
        for at in range(len(self.numbers)):
            if self.numbers[at : at + len(numbers)] == numbers:
                return at
        self.begun[len(self.numbers)] = text
        self.numbers += numbers
        return len(self.numbers) - len(numbers)


# what a group is multiplied by to make room for its kind and target
GROUP_UNIT = 4 * 64


class Tables:
    def __init__(self):
        self.rows, self.published, self.others = rows_wanted("rows_say"), rows_wanted("published_say"), others_wanted()
        self.names = layout_names(self.rows, self.published, self.others)
        every = [*self.rows, *self.published]
        layouts = [row[column] for row in every for column in LAYOUTS] + list(self.others.values())
        self.fields, self.groups = Sequences(), Sequences()
        # the longest first, so that others can be the end of one
        for items in sorted((group.args[-1] for groups in layouts for group in groups), key=len, reverse=True):
            within(f"the fields {letters_of(items)}", self.place_fields, items)
        self.places = {groups: within(f"the layout {shape_of(groups)}", self.place_runs, groups) for groups in layouts}
        self.packed = self.joined_tables()
        kinds = [row[column] for row in every for column in ANSWERS]
        self.kinds = [kind for kind in dict.fromkeys(kinds) if kind.name != "just"]

    def joined_tables(self):
        """The groups and, behind them, the fields. Only now it is known where these begin."""
        behind, joined = len(self.groups.numbers), Sequences()
        joined.numbers = [code and code + GROUP_UNIT * behind for code in self.groups.numbers] + self.fields.numbers
        joined.begun = {**self.groups.begun, **{behind + at: text for at, text in self.fields.begun.items()}}
        return joined

    def place_fields(self, items):
        return self.fields.place(map(field_code, items), letters_of(items))

    def place_runs(self, groups):
        return self.groups.place(map(self.group_code, groups), shape_of(groups))

    def group_code(self, group):
        target = sum(map(target_of, group.args[:-1]))
        return joined(("a kind", known(GROUPS, group.name), 4), ("a target", target, 64), ("a place of fields", self.place_fields(group.args[-1]), 2**55))

    def kind_code(self, kind):
        if kind.name != "just":
            return FIRST_CODE + self.kinds.index(kind)
        return just_number(kind)

    def kind_name(self, kind):
        # a longer name would not fit on a line
        return kind_name(kind) if len(kind_name(kind)) <= 68 else f"DECIDED_{self.kind_code(kind)}"

    def kind_users(self, kind):
        users = [(row, "") for row in self.rows] + [(row, " in published mode") for row in self.published]
        return ", ".join(f"{field.removesuffix('_kind')} of {row['code']}{mode}" for row, mode in users for column, field in ANSWERS.items() if row[column] == kind)

    def row_numbers(self, row):
        return [row["code"], *(self.places[row[column]] for column in LAYOUTS), *(self.kind_code(row[column]) for column in ANSWERS)]

    def row_code(self, row):
        parts = [("a place of groups or a code of a kind", number, 256) for number in self.row_numbers(row)[1:]]
        # 1 above all: no row is 0
        return within(f"operation {row['code']}", joined, *parts, ("a row", 1, 2))
