"""What crosses the C boundary, read from the Rattle sources: the exported functions, every struct that they reach, the records that
are lent as lists of numbers, the constants, and the numbers of enums. What tools/declarations writes from. What is not known here is
refused, with its file and line."""
import os
import re
from typing import NamedTuple

from edits import read
from sources import crates, leading_comment, modules, unmarked

LIBRARY = "host"  # the crate that the static library is made of, with all that it needs
PREFIX = "tivembo_"
CONSTANTS = ("limits", "widths", "kinds")  # modules of the crate reading
NUMBERS = "crates/reading/specs/Numbers.antt"
BYTES = {"u8": 1, "u16": 2, "u32": 4, "u64": 8, "usize": 8, "bool": 1}
TOKEN = re.compile(r"//[^\n]*|\w+|->|::|\S")
NO_MANGLE = "#[unsafe(no_mangle)]"
EXPORTED = re.compile(r'^pub extern "C" fn (\w+)\(', re.M)
# A name of a field or a parameter becomes one in Rust, in C and in C++.
KEYWORDS = set("""alignas alignof and asm auto bool case catch char class compl const constexpr decltype default delete do double
    dynamic_cast explicit export extern float friend goto inline int long mutable namespace new noexcept not nullptr operator or
    private protected public register restrict short signed sizeof static_assert static_cast switch template this thread_local throw
    try typedef typeid typename union unsigned using virtual void volatile xor""".split())


class Refused(Exception):
    """Something that cannot be declared."""


class Number(NamedTuple):
    name: str  # as Rattle and Rust have it
    size = property(lambda self: BYTES[self.name])
    align = size


class Array(NamedTuple):
    of: object
    length: str  # as a path to a constant of CONSTANTS, or a number
    count: int
    size = property(lambda self: self.of.size * self.count)
    align = property(lambda self: self.of.align)


class Slice(NamedTuple):
    """A lent list: a pointer to its first entry, and its length."""
    of: object
    is_mut: bool


class Lent(NamedTuple):
    """One lent value: a pointer."""
    of: object
    is_mut: bool


class Field(NamedTuple):
    name: str
    type: object
    doc: str


class Record(NamedTuple):
    name: str
    fields: list
    doc: str
    align = property(lambda self: max(field.type.align for field in self.fields))

    def offsets(self):
        """Where each field begins, as C lays out a struct, and where the last one ends."""
        at = 0
        for field in self.fields:
            at = rounded(at, field.type.align)
            yield at
            at += field.type.size
        yield at

    @property
    def size(self):
        return rounded(list(self.offsets())[-1], self.align)

    def is_words(self):
        """Whether it is made of `u64` alone."""
        return all(is_words(field.type) for field in self.fields)


class Function(NamedTuple):
    name: str
    parameters: list  # of fields
    result: object  # or None
    doc: str


class Constant(NamedTuple):
    name: str
    type: str
    value: int
    doc: str


class Group(NamedTuple):
    """Constants that belong together: of a module, or of an enum."""
    name: str
    one: str  # what one of them is: of a module, whose name is a plural, the singular
    constants: list
    doc: str


class Boundary(NamedTuple):
    functions: list
    records: list  # each after those that it holds
    constants: list  # of groups, one for each module
    numbers: list  # of groups, one for each definition


def rounded(at, align):
    return -(-at // align) * align


def is_words(kind):
    if isinstance(kind, Array):
        return is_words(kind.of)
    return kind.is_words() if isinstance(kind, Record) else kind == Number("u64")


def above(text, start, mark="//"):
    """The comment that stands directly above the line at a place, and the attributes between the two."""
    lines = text[:start].split("\n")[:-1]
    attributes, comment = [], []
    while lines and lines[-1].startswith("#["):
        attributes.insert(0, lines.pop())
    while lines and lines[-1].startswith(mark):
        comment.insert(0, unmarked(lines.pop()))
    return "\n".join(comment).strip(), attributes


def each_used(used):
    """The paths of a `use` line, of which several may stand in braces behind what they begin with."""
    start, _, listed = used.partition("{")
    return [start + name.strip() for name in listed.rstrip("} \n").split(",") if name.strip()] if listed else [used]


class File:
    """A .rt file: its text, and what its `use` lines name."""

    def __init__(self, root, crate, path):
        self.crate = crate
        self.path = f"crates/{crate}/{path}"
        self.text = read(os.path.join(root, self.path))
        self.uses = {}
        for used in re.findall(r"^(?:pub )?use ([\w:{},\s]+);", self.text, re.M):
            for names in (one.split("::") for one in each_used(used)):
                self.uses[names[-1]] = [crate] + names[1:] if names[0] == "crate" else names

    def refuse(self, place, why):
        raise Refused(f"{self.path}:{self.text.count(chr(10), 0, place) + 1}: {why}")


class Tokens:
    """The tokens of a file from a place on: the next one, the comment in the lines directly above it, and the comment after the last
    one in its line."""

    def __init__(self, file, place):
        self.file = file
        self.found = TOKEN.finditer(file.text, place)
        self.token, self.end = "", place
        self.advance()

    def advance(self):
        taken, self.comment, self.after = self.token, [], ""
        for match in self.found:
            between = self.file.text[self.end:match.start()]
            if between.count("\n") > 1:  # an empty line
                self.comment = []
            self.token, self.place, self.end = match.group(), match.start(), match.end()
            if not self.token.startswith("//"):
                return taken
            if "\n" in between:
                self.comment.append(unmarked(self.token))
            else:
                self.after = unmarked(self.token)
        raise Refused(f"{self.file.path}: it ends too soon")

    def take(self, token):
        return self.token == token and bool(self.advance())

    def expect(self, token):
        if not self.take(token):
            self.file.refuse(self.place, f"{token} is expected, and {self.token} stands there")

    def name(self):
        if not re.fullmatch(r"\w+", self.token):
            self.file.refuse(self.place, f"a name is expected, and {self.token} stands there")
        return self.advance()

    def path(self):
        names = [self.name()]
        while self.take("::"):
            names.append(self.name())
        return names


class Reader:
    """Reads the sources below a folder."""

    def __init__(self, root):
        self.root = root
        self.crates = {crate.name: crate for crate in crates(root)}
        self.files = {}
        self.records = {}  # by name, in the order in which they are complete

    def file(self, crate, path):
        if (crate, path) not in self.files:
            self.files[crate, path] = File(self.root, crate, path)
        return self.files[crate, path]

    def declaring(self, file, place, names):
        """The file that declares what a path names there, and its name."""
        first = file.uses.get(names[0], [file.crate] if names[0] == "crate" else names[:1])
        full = first + names[1:]
        if len(full) == 1:
            return file, full[0]
        if full[0] not in self.crates:
            file.refuse(place, f"{'::'.join(names)} is not known")
        path = "/".join(["src"] + (full[1:-1] or ["lib"])) + ".rt"
        if not os.path.exists(os.path.join(self.crates[full[0]].folder, path)):
            file.refuse(place, f"{'::'.join(names)} would be in {full[0]}/{path}, and there is no such file")
        return self.file(full[0], path), full[-1]

    def type_at(self, tokens):
        if not tokens.take("&"):
            return self.single_at(tokens)
        is_mut = tokens.take("mut")
        if not tokens.take("["):
            return Lent(self.single_at(tokens), is_mut)
        listed = Slice(self.single_at(tokens), is_mut)
        tokens.expect("]")
        return listed

    def single_at(self, tokens):
        """A number or a struct: C cannot be given an array by value, and a lent one would be another type in each language."""
        if tokens.token in ("[", "&"):
            tokens.file.refuse(tokens.place, "a number or a struct is expected; an array goes over in a struct")
        return self.held_at(tokens)

    def held_at(self, tokens):
        """A type that a struct can hold: a number, a struct, or an array of them."""
        if tokens.take("["):
            of = self.held_at(tokens)
            tokens.expect(";")
            place, names = tokens.place, tokens.path()
            tokens.expect("]")
            return self.array(tokens.file, place, of, names)
        place = tokens.place
        names = tokens.path()
        if names[0] in BYTES:
            return Number(names[0])
        return self.record(*self.declaring(tokens.file, place, names), (tokens.file, place))

    def array(self, file, place, of, names):
        if re.fullmatch(r"[\d_]+", names[0]):
            return Array(of, names[0], int(names[0]))
        declaring, name = self.declaring(file, place, names)
        value = next((c.value for c in constants(declaring) if c.name == name), None)
        if value is None:
            file.refuse(place, f"{'::'.join(names)} is not a constant of {declaring.path}")
        module = os.path.basename(declaring.path)[:-3]
        is_shared = declaring.crate == "reading" and module in CONSTANTS
        return Array(of, f"{module}::{name}" if is_shared else str(value), value)

    def record(self, file, name, asked, lent_as_numbers=False):
        """The struct of a file. One that goes over as such is `#[repr(C)]`; one that goes over as numbers need not be."""
        found = re.search(rf"^pub struct {name} \{{", file.text, re.M)
        if not found:
            asked[0].refuse(asked[1], f"no type {name} that can go over: {file.path} has no pub struct of that name")
        doc, attributes = above(file.text, found.start())
        if not lent_as_numbers and "#[repr(C)]" not in attributes:
            file.refuse(found.start(), f"{name} goes over and is not #[repr(C)]")
        record = Record(name, list(self.fields(Tokens(file, found.end()))), doc)
        if not record.fields:
            file.refuse(found.start(), f"{name} holds nothing")
        if self.records.setdefault(name, record) != record:
            file.refuse(found.start(), f"two structs that go over are named {name}")
        return record

    def fields(self, tokens):
        while tokens.token != "}":
            doc = "\n".join(tokens.comment).strip()
            tokens.expect("pub")
            field = self.field(tokens, doc, self.held_at)
            if tokens.token != "}":
                tokens.expect(",")
            yield field._replace(doc=doc or tokens.after)

    @staticmethod
    def field(tokens, doc, type_at):
        place, name = tokens.place, tokens.name()
        if name in KEYWORDS:
            tokens.file.refuse(place, f"{name} is a word of C or C++")
        tokens.expect(":")
        return Field(name, type_at(tokens), doc)

    def functions(self, file):
        found = list(EXPORTED.finditer(file.text))
        exported = [match for match in found if NO_MANGLE in above(file.text, match.start())[1]]
        if len(exported) != len(re.findall(r"^\s*#\[.*\bno_mangle\b", file.text, re.M)):
            file.refuse(0, f"a {NO_MANGLE} does not stand above a pub extern \"C\" fn")
        return [self.function(file, match) for match in exported]

    def function(self, file, match):
        if not match.group(1).startswith(PREFIX):
            file.refuse(match.start(), f"the name of an exported function begins with {PREFIX}")
        tokens = Tokens(file, match.end())
        parameters = []
        while not tokens.take(")"):
            parameters.append(self.field(tokens, "", self.type_at))
            if tokens.token != ")":
                tokens.expect(",")
        place = tokens.place
        result = self.type_at(tokens) if tokens.take("->") else None
        if isinstance(result, (Slice, Lent)):
            file.refuse(place, "a result is a number or a struct")
        if tokens.token not in ("ensures", "{"):
            file.refuse(tokens.place, f"an exported function asks nothing of its caller, and {tokens.token} stands there")
        return Function(match.group(1), parameters, result, above(file.text, match.start())[0])

    def linked(self):
        """The files of the library's crate and of all that it needs."""
        names = {LIBRARY}
        for crate in reversed(self.crates.values()):
            names.update(crate.needs if crate.name in names else [])
        for crate in self.crates.values():
            if crate.name in names:
                yield from (self.file(crate.name, path) for path, _ in modules(crate.folder))

    def boundary(self):
        shared = {name: self.file("reading", f"src/{name}.rt") for name in CONSTANTS}
        groups = [Group(name, name.removesuffix("s"), constants(file), leading_comment(file.text)) for name, file in shared.items()]
        for width in constants(shared["widths"]):
            self.check_width(shared["widths"], width)
        functions = [function for file in self.linked() for function in self.functions(file)]
        return Boundary(functions, list(self.records.values()), groups, numbers(read(os.path.join(self.root, NUMBERS))))

    def check_width(self, widths, width):
        """Each width is that of a record of the crate reading, by its name, that is lent as so many numbers."""
        place = widths.text.index(f"const {width.name}:")
        name = "".join(word.capitalize() for word in width.name.split("_"))
        record = self.record(self.file("reading", "src/lib.rt"), name, (widths, place), lent_as_numbers=True)
        if not record.is_words() or record.size != 8 * width.value:
            widths.refuse(place, f"{width.name} is {width.value}, and {name} is not so many numbers")


def constants(file):
    """The public constants of a file. Only a plain number can be one."""
    found = []
    for match in re.finditer(r"^pub const (\w+): (\w+) = (.*);$", file.text, re.M):
        name, kind, value = match.groups()
        if kind not in BYTES or not re.fullmatch(r"\d[\d_]*|0x[0-9A-Fa-f_]+", value):
            file.refuse(match.start(), f"{name} is not a plain number")
        found.append(Constant(name, kind, int(value, 0), above(file.text, match.start())[0]))
    return found


def numbers(text):
    """The definitions `case_number : Enum → ℕ` that give each case of an enum a number as such, or one more than that of the value that
    the case holds. Others are not numbers of cases. Of an `Option` the case without a value is a setting that is unset, where the one
    with a value has the number of that value and one more."""
    found = {}
    for match in re.finditer(r"^(?:\w+ )*pub (\w+)_number : ((?:Option )?[\wℕ]+) → ℕ\n((?:\1_number .*\n?)+)", text, re.M):
        name, enum, lines = match.groups()
        cases = [cases_in(line, f"{name}_number", enum, found) for line in lines.splitlines()]
        if enum.startswith("Option ") and "suc (" in lines:
            cases = [[case._replace(name="Unset") if case.name == "None" else case for case in some] for some in cases]
        if all(cases):
            doc, _ = above(text, match.start(), "--")
            found[name] = Group(name, name, [case for some in cases for case in some], doc)
    return list(found.values())


def cases_in(line, name, enum, found):
    """The cases that a line of such a definition gives numbers to, none where it gives no number."""
    case = "(None|Some)" if enum.startswith("Option ") else rf"{enum}\.(\w+)"
    match = re.fullmatch(rf"{name} \(?{case}(?: (\w+)\))? = (?:(\d+)|(?:ℕ\.)?suc \((\w+)_number \2\))", line)
    if not match:
        return []
    case, _, number, other = match.groups()
    if number:
        return [Constant(case, "u64", int(number), "")]
    return [held._replace(value=held.value + 1) for held in found[other].constants] if other in found else []
