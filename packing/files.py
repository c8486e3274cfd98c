"""The files that have the packed tables: their texts, with the tables in place of the words that have a `$`."""
import string

from packing.layouts import ANSWERS, FIRST_CODE, LAYOUTS, all_kinds, constant, just_number, kind_name, shape_of

MADE = "Made by ./tables from crates/layouts/specs and crates/table/specs/Claims.antt"

PACKED = """-- $made: the packed tables of the code.
use Rattle.std.specs.Prelude.{ℕ, List, [], ◌∷◌}
use Rattle.table.specs.declared.Row.{Row}
use Rattle.table.specs.Numbered.{Numbered, just, by_version, by_flag}

abbrev pub size : ℕ
size = $size

-- the groups of the layouts, then their fields
abbrev pub packed_list : List ℕ
packed_list =
$packed
    []

-- number; groups of arguments, skipped arguments, reply; the codes of their kinds
abbrev op : (number arguments skipped reply arguments_kind skipped_kind reply_kind : ℕ) → Row
op n a k r ak kk rk = record { number = n; arguments = a; skipped = k; reply = r; arguments_kind = ak; skipped_kind = kk; reply_kind = rk }

abbrev pub rows : List Row
rows =
$rows
    []

-- those that published mode has in place of some
abbrev pub published_rows : List Row
published_rows =
$published
    []

-- the groups of the other layouts
$others

-- the kinds that a version or a flag decides; their codes count from here on
abbrev pub first_code : ℕ
first_code = $first_code

abbrev pub kind_list : List Numbered
kind_list =
$kinds
    []

-- the list under a name that stays shut
unfoldable pub packed_table : List ℕ
packed_table = packed_list
"""

CODES = """// $made: the groups of the layouts and then their fields, packed. A match becomes one load.
ghost use Rattle.std.specs.Prelude.{◌≡◌, get_or};
ghost use Rattle.table.specs.Packed.{packed_list};

pub fn code(i: usize) -> u64
    ensures { result ≡ get_or packed_list i 0 }
{
    match i {
$arms
        _ => 0,
    }
}
"""

CODES_PROOF = """-- $made: an arm of `code` is an entry of the list, and the last arm lies past its end.
use Prim.Native.Nat.{◌≤◌}
use native.Mathlib.Omega.{arith}
use Rattle.table.proofs.Tables.{entry, get_d_past}
use Rattle.table.specs.Packed.{packed_list}
use Rattle.table_code.proofs.packed.code.Goals as goal

$answers
"""

PLACES = """// $made: where the groups of each layout begin.

// How many numbers there are. Past its end the table reads as 0, so this is also a place without fields.
pub const SIZE: usize = $size;

// ---- the layouts outside of the table of operations

$others

// ---- the layouts of operations, each named after its definition, or else after the first operation that has it

$layouts
"""

KINDS = """// $made: the kinds of answers.

$kinds

// ---- the codes of kinds that a version or a flag decides. A lower number is a kind

pub const FIRST_CODE: u8 = $first_code;

$codes
"""

OPERATIONS = """// $made: the operations as one constant table, and those that published mode has in place of some.
use table::{Row, kinds as kind, places as layout};

pub const COUNT: usize = $count;

pub const OPERATIONS: [Row; COUNT] = [
$rows
];

pub const PUBLISHED_COUNT: usize = $published_count;

pub const PUBLISHED: [Row; PUBLISHED_COUNT] = [
$published
];
"""

ROW = """    // $number. Arguments: $arguments_shape. Reply: $reply_shape
    Row {
        number: $number,
        arguments: layout::$arguments,
        skipped: layout::$skipped,
        reply: layout::$reply,
        arguments_kind: kind::$arguments_kind,
        skipped_kind: kind::$skipped_kind,
        reply_kind: kind::$reply_kind,
    },"""

ROW_CODES = """// $made: the rows of the operations, by number. A match becomes one load.
ghost use Rattle.table_operations.specs.Rows.{row_of};
ghost use Rattle.table.specs.Table.{row_for};
ghost use Rattle.layouts.specs.declared.Mode.TheVariants.{Ported, Published};
ghost use Rattle.std.specs.Prelude.{◌≡◌};

pub fn ported(op: u64) -> u64
    ensures { row_of op result ≡ row_for Ported op }
{
    match op {
$arms
        _ => 0,
    }
}

pub fn published(op: u64) -> u64
    ensures { row_of op result ≡ row_for Published op }
{
    match op {
$published
        _ => ported(op),
    }
}
"""

ROW_CODES_PROOF = """-- $made: `$mode` arm by arm, and $last.
use mathlib.Core.Path.{refl}
use Rattle.layouts.specs.declared.Mode.TheVariants.{$variant}
use Rattle.table.specs.Table.{find_in, row_for}
use Rattle.table_operations.specs.Rows.{row_of}
use Rattle.table_operations.proofs.Search.{arm, $law}
use native.Mathlib.Omega.{arith}
use Rattle.table_operations.proofs.rows.$mode.Goals as goal

$answers
"""

KIND_CODES = """// $made: the kind that a code stands for. Only a code that a version or a flag decides is not its own kind.
ghost use Rattle.table.specs.Table.{version_in, kind_numbered};
ghost use Rattle.std.specs.Prelude.{◌≡◌};

use crate::{either, since};
use table::kinds as kind;

pub fn decided(code: u8, spoken: u64, present: bool) -> u8
    ensures { result ≡ kind_numbered (version_in spoken) present code }
{
    match code {
$arms
        _ => code,
    }
}
"""

KIND_CODES_PROOF = """-- $made: `decided` way by way, and in the last arm the code is none of the list.
use borrow.Author.Rules.{rules}
use Rattle.table.specs.Table.{numbered_of}
use Rattle.table_operations.proofs.Itself.{itself}
use native.Mathlib.Omega.{arith}
use Rattle.table_operations.proofs.decided.decided.Goals as goal

$answers
"""


def filled(text, **parts):
    parts = {name: part if isinstance(part, str) else "\n".join(part) for name, part in parts.items()}
    return string.Template(text).substitute(parts, made=MADE)


def answered(answers, opened=()):
    """What is written of each goal, by its name: the answer, as a function of what is known there. Names in `opened` are unfolded."""
    unfolding = f"unfolding {' '.join(opened)}\n" if opened else ""
    return "\n\n".join(f"pub {goal} : goal.{goal}\n{unfolding}{goal} c = {answer}" for goal, answer in answers)


def missed(count):
    """In the last arm: what is matched is none of that many numbers."""
    return "(" * count + "tt" + ", λ e. omega arith)" * count


# ---- groups and fields


def listed(sequences):
    """The numbers as lines of an antt list, each sequence below what it stands for."""
    places = [*sequences.begun, len(sequences.numbers)]
    for at, end in zip(places, places[1:]):
        yield f"    -- {at}: {sequences.begun[at]}"
        yield "    " + " ".join(f"{number} ∷" for number in sequences.numbers[at:end])


def packed(t):
    return filled(
        PACKED,
        size=str(len(t.packed.numbers)),
        packed=listed(t.packed),
        rows=(f"    op {' '.join(map(str, t.row_numbers(row)))} ∷" for row in t.rows),
        published=(f"    op {' '.join(map(str, t.row_numbers(row)))} ∷" for row in t.published),
        others="\n\n".join(f"abbrev pub {name} : ℕ\n{name} = {t.places[groups]}" for name, groups in t.others.items()),
        first_code=str(FIRST_CODE),
        kinds=(f"    {numbered(kind)[1:-1]} ∷" for kind in t.kinds),
    )


def codes(sequences):
    arms = []
    for at, number in enumerate(sequences.numbers):
        arms += [f"        // {sequences.begun[at]}"] if at in sequences.begun else []
        arms.append(f"        {at} => {number},")
    return filled(CODES, arms=arms)


def codes_proof(sequences):
    size = len(sequences.numbers)
    last = f"let i = c.args.i in let past : {size} ≤ i = omega arith in get_d_past packed_list i 0 past"
    return filled(CODES_PROOF, answers=answered([*((f"returns-in-{i}", f"entry packed_list c.in-{i}.is") for i in range(size)), ("returns-in_default", last)]))


# ---- constants and rows


def constants(of, named):
    """Constants, each below what it stands for."""
    return "\n\n".join((f"// {text}\n" if text else "") + f"pub const {name}: {of} = {number};" for name, number, text in named)


def places(t):
    others = ((constant(name), t.places[groups], shape_of(groups)) for name, groups in t.others.items())
    layouts = ((name, t.places[groups], shape_of(groups)) for groups, name in t.names.items() if groups in t.places)
    return filled(PLACES, size=str(len(t.packed.numbers)), others=constants("u8", others), layouts=constants("u8", layouts))


def kinds(t):
    plain = ((name, number, "") for name, number in all_kinds())
    decided = ((t.kind_name(kind), t.kind_code(kind), t.kind_users(kind)) for kind in t.kinds)
    return filled(KINDS, kinds=constants("u8", plain), first_code=str(FIRST_CODE), codes=constants("u8", decided))


def operation(t, row):
    layouts = {field: t.names[row[column]] for column, field in LAYOUTS.items()}
    answers = {field: t.kind_name(row[column]) for column, field in ANSWERS.items()}
    return filled(ROW, number=str(row["code"]), arguments_shape=shape_of(row["arguments"]), reply_shape=shape_of(row["reply"]), **layouts, **answers)


def operations(t):
    rows, published = ([operation(t, row) for row in own] for own in (t.rows, t.published))
    return filled(OPERATIONS, count=str(len(rows)), rows=rows, published_count=str(len(published)), published=published)


def row_codes(t):
    arms, published = ([f"        {row['code']} => {t.row_code(row)}," for row in own] for own in (t.rows, t.published))
    return filled(ROW_CODES, arms=arms, published=published)


def row_codes_proof(t, own, mode, before, last_answer, **words):
    variant = mode.capitalize()
    arms = ((f"returns-in-{row['code']}", f"arm {variant} {t.row_code(row)} c.in-{row['code']}.is refl") for row in own)
    answers = answered([*before, *arms, ("returns-in_default", last_answer)], ("row_of", "row_for", "find_in"))
    return filled(ROW_CODES_PROOF, mode=mode, variant=variant, answers=answers, **words)


def ported_proof(t):
    return row_codes_proof(t, t.rows, "ported", [], f"none c.args.op {missed(len(t.rows))}", law="none", last="no row has another number")


def published_proof(t):
    answer = f"others _ c.ported.result {missed(len(t.published))} c.ported.ensures"
    return row_codes_proof(t, t.published, "published", [("ported-requires", "tt")], answer, law="others", last="with another number the other rows decide")


# ---- kinds that a version or a flag decides


def parted(kind):
    """The function that decides a kind, what it is asked with, and the two kinds that it chooses from."""
    *version, yes, no = kind.args
    return ("since", ["spoken", str(version[0])], yes, no) if version else ("either", ["present"], yes, no)


def numbered(kind):
    """In the words of crates/table/specs/Numbered.antt."""
    if kind.name == "just":
        return f"(just {just_number(kind)})"
    *version, yes, no = kind.args
    return f"({' '.join([kind.name, *map(str, version), numbered(yes), numbered(no)])})"


def decision(kind, indent):
    """In calls, as the formatter lays them out: on one line where the arguments have 60 letters or fewer."""
    if kind.name == "just":
        return [f"{indent}kind::{kind_name(kind)}"]
    function, asked, yes, no = parted(kind)
    inner = indent + "    "
    arguments = [[inner + word] for word in asked] + [decision(yes, inner), decision(no, inner)]
    lines = [line for argument in arguments for line in [*argument[:-1], argument[-1] + ","]]
    flat = " ".join(line.strip() for line in lines).removesuffix(",")
    short = len(lines) == len(arguments) and len(flat) <= 60
    return [f"{indent}{function}({flat})"] if short else [f"{indent}{function}(", *lines, f"{indent})"]


def kind_codes(t):
    arms = []
    for kind in t.kinds:
        # with a comment the formatter leaves the block a block, however short it is
        arms += [f"        kind::{t.kind_name(kind)} => {{", f"            // {t.kind_users(kind)}", *decision(kind, " " * 12), "        }"]
    return filled(KIND_CODES, arms=arms)


def calls_in(kind, code, taken):
    """The calls of a decision, in the order in which they are made: the function, and what Rattle puts behind its name to tell its calls apart.

    That is nothing at the first call of all; then the arm in which it stands, and from the second there on a number besides.
    """
    if kind.name == "just":
        return []
    function, _, yes, no = parted(kind)
    inner = calls_in(yes, code, taken) + calls_in(no, code, taken)
    ends = ["", f"-in-{code}", *(f"-in-{code}-{i}" for i in range(2, 9))]
    call = next((function, end) for end in ends if (function, end) not in taken)
    taken.add(call)
    return [*inner, call]


def kind_codes_proof(t):
    taken, called, arms = set(), [], []
    for kind in t.kinds:
        code = t.kind_code(kind)
        calls = calls_in(kind, code, taken)
        called += [(f"{function}-requires{end}", "search rules") for function, end in calls]
        facts = [f"c.in-{code}.is", *(f"c.{function}{end}.ensures" for function, end in reversed(calls))]
        arms.append((f"returns-in-{code}", f"rw ({', '.join(facts)})"))
    last = ("returns-in_default", f"itself _ _ _ {missed(len(t.kinds))}")
    return filled(KIND_CODES_PROOF, answers=answered([*called, *arms, last], ["numbered_of"]))


def files(t):
    return {
        "crates/table/specs/Packed.antt": packed(t),
        "crates/table/src/places.rt": places(t),
        "crates/table/src/kinds.rt": kinds(t),
        "crates/table_code/src/packed.rt": codes(t.packed),
        "crates/table_code/proofs/packed/code/Answers.antt": codes_proof(t.packed),
        "crates/table_code/src/operations.rt": operations(t),
        "crates/table_operations/src/rows.rt": row_codes(t),
        "crates/table_operations/proofs/rows/ported/Answers.antt": ported_proof(t),
        "crates/table_operations/proofs/rows/published/Answers.antt": published_proof(t),
        "crates/table_operations/src/decided.rt": kind_codes(t),
        "crates/table_operations/proofs/decided/decided/Answers.antt": kind_codes_proof(t),
    }
