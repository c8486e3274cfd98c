"""A reader of antt, for the part of it in which the layouts are defined: constructors, clauses by pattern, application, lists, numbers, records.

A list becomes a tuple, a record a dict, a number an int; anything else is a constructor with its arguments. A definition is read only where
something asks for it, so the rest of a file may be beyond this reader.
"""
import collections
import functools
import pathlib
import re

ROOT = pathlib.Path(__file__).resolve().parent.parent

# values
Function = collections.namedtuple("Function", "arity call args")
# terms and patterns; a name is a str
Infix = collections.namedtuple("Infix", "name left right")
Apply = collections.namedtuple("Apply", "function argument")
Field = collections.namedtuple("Field", "term name")


class Con(collections.namedtuple("Con", "name args")):
    """A value: a constructor with its arguments. Faults show it as antt writes it."""

    def __repr__(self):
        return f"({' '.join([self.name, *map(repr, self.args)])})" if self.args else self.name


# These definitions stay as they stand: the claims speak of what a layout or a kind is made of, and not of what becomes of it.
SHUT = {"layout", "arguments_number", "reply_number", "skipped_number"}


class Fault(Exception):
    """What can't be made, and the file and definition, or the layout, in which that showed."""

    def __init__(self, why, where=""):
        super().__init__(f"{where}: {why}" if where else why)
        self.why, self.where = why, where


def within(where, make, *arguments):
    """What `make` gives; a fault in it is said to be in `where`, unless it is already said to be somewhere."""
    try:
        return make(*arguments)
    except Fault as fault:
        raise fault if fault.where else Fault(fault.why, where) from None


def words_of(text):
    return re.findall(r"[(){};,]|[^\s(){};,]+", text)


class Parser:
    def __init__(self, words):
        self.words, self.at = words, 0

    def peek(self):
        return self.words[self.at] if self.at < len(self.words) else None

    def take(self, wanted=None):
        word = self.peek()
        if word is None or wanted not in (None, word):
            raise Fault(f"this reader expects '{wanted or 'a term'}' where '{word or 'the end'}' stands")
        self.at += 1
        return word

    def whole(self):
        term = self.term()
        if self.peek() is not None:
            raise Fault(f"this reader does not know what '{self.peek()}' does here")
        return term

    def term(self):
        left = self.application()
        # both join to the right, at one level
        return Infix(self.take(), left, self.term()) if self.peek() in ("∷", "++") else left

    def application(self):
        term = self.atom()
        while self.peek() not in (None, ")", "}", ";", "∷", "++"):
            term = Apply(term, self.atom())
        return term

    def atom(self):
        word = self.take()
        if word == "(":
            term = self.term()
            self.take(")")
            # a field is asked of what stands right before its dot
            while (self.peek() or "").startswith("."):
                term = Field(term, self.take()[1:])
            return term
        if word == "record":
            return self.fields()
        if word in ("λ", "let", "rw", "{", "}", ")", ";", ","):
            raise Fault(f"this reader knows no term that begins with '{word}'")
        return int(word, 0) if word[0].isdigit() else word

    def fields(self):
        fields = {}
        self.take("{")
        while self.peek() != "}":
            name = self.take()
            self.take("=")
            fields[name] = self.term()
            if self.peek() != "}":
                self.take(";")
        self.take("}")
        return fields


def spine(term):
    """What is applied, and the arguments that it is applied to."""
    arguments = []
    while isinstance(term, Apply):
        arguments.insert(0, term.argument)
        term = term.function
    return term, arguments


def sides(words):
    """The two sides of a claim."""
    equals = words.index("≡")
    return Parser(words[:equals]).whole(), Parser(words[equals + 1 :]).whole()


def apply(function, value):
    if isinstance(function, Con):
        return Con(function.name, function.args + (value,))
    if not isinstance(function, Function):
        raise Fault(f"{function} is applied, and is no function")
    args = function.args + (value,)
    return function.call(*args) if len(args) == function.arity else function._replace(args=args)


def field_of(value, name):
    if not isinstance(value, dict) or name not in value:
        raise Fault(f"the field '{name}' is asked of something that has none of that name")
    return value[name]


def truth(b):
    return Con("true" if b else "false", ())


# what the definitions use of antt's own library
LIBRARY = {
    "[]": (),
    "true": truth(True),
    "false": truth(False),
    "eqb": Function(2, lambda a, b: truth(a == b), ()),
    "max": Function(2, max, ()),
    "map": Function(2, lambda f, xs: tuple(apply(f, x) for x in xs), ()),
}


def items_of(text):
    """The lines of a file, without comments: one that starts at the margin, together with the indented ones below it."""
    item = []
    for line in text.split("\n"):
        line = re.sub(r"(^|\s)--(\s.*)?$", "", line)
        if line[:1].strip() and item:
            yield item
            item = []
        if line.strip():
            item.append(line)
    if item:
        yield item


def file_of(module):
    """The file of specs/ that a module is, or None: antt's own library, and what Rattle declares, have none here."""
    path = re.fullmatch(r"Rattle\.(\w+)\.specs\.(\w+)", module)
    return f"crates/{path[1]}/specs/{path[2]}.antt" if path and path[1] != "std" else None


class Module:
    """A file of definitions."""

    def __init__(self, path):
        self.path = path
        # by name: clauses and signatures as words, the fields of a record, the data type of a constructor, the file that a name comes from, the file of an alias
        self.clauses, self.types, self.records, self.constructors, self.imports, self.aliases = {}, {}, {}, {}, {}, {}
        try:
            text = (ROOT / path).read_text()
        except OSError as error:
            raise Fault(f"it can't be read: {error.strerror}", path) from error
        for item in items_of(text):
            self.note(item)

    def note(self, item):
        words = [word for word in words_of("\n".join(item)) if word not in ("pub", "abbrev", "unfoldable")]
        before_type = words[: (words + [":"]).index(":")]
        if words[0] == "use":
            self.note_use(item[0])
        elif words[0] == "data":
            lines = [words_of(line) for line in item[1:]]
            self.constructors.update((name, words[1]) for line in lines for name in line[: line.index(":")])
        elif words[0] == "record":
            self.records[words[1]] = [words_of(line.replace("pub ", "", 1)) for line in item[1:]]
        elif "=" in before_type:
            self.clauses.setdefault(words[0], []).append(words[1:])
        elif len(before_type) < len(words):
            self.types[words[0]] = words[len(before_type) + 1 :]

    def note_use(self, line):
        path, names, alias = re.fullmatch(r"use (.*?)(?:\.\{(.*)\}| as (\S+))?", line).groups()
        path = file_of(path)
        if alias:
            self.aliases[alias] = path
        for name in (names or "").split(", "):
            self.imports[name] = path

    def owner(self, name):
        """The module that defines a name, None for antt's own library, and the name there."""
        alias, dot, rest = name.partition(".")
        if dot and self.aliases.get(alias):
            return load(self.aliases[alias]), rest
        if name in self.clauses or name in self.constructors:
            return self, name
        if self.imports.get(name):
            return load(self.imports[name]).owner(name)
        if name in LIBRARY:
            return None, name
        raise Fault(f"'{name}' is neither defined in a file of specs/ that is imported here nor in the part of antt's library that this reader knows")

    def value(self, name):
        module, name = self.owner(name)
        if module is None:
            return LIBRARY[name]
        return Con(name, ()) if name in module.constructors or name in SHUT else module.defined(name)

    @functools.lru_cache(None)
    def defined(self, name):
        """The value of a definition, also of one that stays shut elsewhere."""
        where = f"{self.path}: {name}"
        clauses = [within(where, self.clause, words) for words in self.clauses[name]]
        arity = len(clauses[0][0])
        call = functools.partial(within, where, self.call, clauses)
        return Function(arity, call, ()) if arity else call()

    def clause(self, words):
        """Patterns, and the term that they have."""
        equals = words.index("=")
        return spine(Parser(["_", *words[:equals]]).whole())[1], Parser(words[equals + 1 :]).whole()

    def call(self, clauses, *values):
        for patterns, term in clauses:
            local = {}
            if all(self.fits(pattern, value, local) for pattern, value in zip(patterns, values)):
                return self.compute(term, local)
        raise Fault(f"no clause has the form of {', '.join(map(repr, values))}")

    def fits(self, pattern, value, local):
        """Does a value have a pattern's form? Its variables are then in `local`."""
        if isinstance(pattern, int):
            return value == pattern
        if isinstance(pattern, Infix):
            return value != () and self.fits(pattern.left, value[0], local) and self.fits(pattern.right, value[1:], local)
        name, patterns = spine(pattern)
        if name == "[]":
            return value == ()
        if patterns or self.is_constructor(name):
            same = isinstance(value, Con) and value.name == self.owner(name)[1] and len(value.args) == len(patterns)
            return same and all(self.fits(p, v, local) for p, v in zip(patterns, value.args))
        local[name] = value
        return True

    def is_constructor(self, name):
        try:
            module, name = self.owner(name)
        except Fault:
            return False
        return name in module.constructors if module else isinstance(LIBRARY[name], Con)

    def compute(self, term, local):
        if isinstance(term, int):
            return term
        if isinstance(term, str):
            # behind a variable, a field; behind the name of a file, a definition
            first, *fields = term.split(".")
            if first in local:
                return functools.reduce(field_of, fields, local[first])
            return self.value(term)
        if isinstance(term, dict):
            return {name: self.compute(field, local) for name, field in term.items()}
        if isinstance(term, Field):
            return functools.reduce(field_of, term.name.split("."), self.compute(term.term, local))
        if isinstance(term, Apply):
            return apply(self.compute(term.function, local), self.compute(term.argument, local))
        left, right = self.compute(term.left, local), self.compute(term.right, local)
        left = (left,) if term.name == "∷" else left
        # a constructor is a kind of tuple too
        if type(left) is not tuple or type(right) is not tuple:
            raise Fault(f"'{term.name}' stands beside something that is no list")
        return left + right


@functools.lru_cache(None)
def load(path):
    return Module(path)
