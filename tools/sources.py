"""The Rattle sources, read: crates, their modules and functions. What edit-errors, code-tables, counts and declarations share."""
import os
import re
from typing import NamedTuple

from edits import read

ROOT = os.path.dirname(os.path.dirname(os.path.abspath(__file__)))
DECLARED = re.compile(r'( *)(pub(?:\(\w+\))? )?(?:extern "C" )?fn (\w+)')
MEMBER = re.compile(r"^    ghost (\w+) = \{ (.*?) \};$", re.M | re.S)


class Crate(NamedTuple):
    name: str
    needs: list
    says: str  # the comment above its line in crates.txt
    folder: str


class Function(NamedTuple):
    name: str  # of a method, with its type: Controls::new, Option<u64>::from
    start: int  # where its first line begins, and its last one ends
    end: int
    contract: str  # its `requires` and `ensures`, blanks normalised; of a trait's that has none, the ghost members named after it
    body: int  # where its body begins
    is_public: bool
    folder: str  # of its proof, from that of the module


def crates(root=ROOT):
    """In the order of crates.txt, which is that of what they need."""
    comment = ""
    for line in read(os.path.join(root, "crates.txt")).splitlines():
        if line.startswith("#"):
            comment = line[1:].strip()
        elif ":" in line:
            named, needs = line.split(":")
            name = named.split()[0]  # what a crate is made into, as `staticlib`, stands after its name
            yield Crate(name, needs.split(), comment, os.path.join(root, "crates", name))
            comment = ""


def modules(folder, path="src", is_public=True):
    """The .rt files of a crate, as paths from its folder, each with whether other crates can name it: a file, then the modules that
    it declares, in their order."""
    choices = [f"{path}/lib.rt", f"{path}/main.rt"] if path == "src" else [f"{path}.rt"]
    file = next((f for f in choices if os.path.exists(os.path.join(folder, f))), None)
    if file is None:
        raise SystemExit(f"{os.path.relpath(folder, ROOT)}: no file {' or '.join(choices)}")
    yield file, is_public
    for public, name in re.findall(r"^(pub )?mod (\w+);", read(os.path.join(folder, file)), re.M):
        yield from modules(folder, f"{path}/{name}", is_public and bool(public))


def module_of(file):
    """The module that a file is, as a path: src/a/b.rt is a/b, src/lib.rt and src/main.rt are the crate's own, ''."""
    path = file.removeprefix("src/").removesuffix(".rt")
    return "" if path in ("lib", "main") else path


def functions(text):
    """The functions of a .rt file that have a body. The layout is that of `rt fmt`: a function ends with a brace at its own margin. Of
    a trait's functions those of an impl are as public as the trait, and those that the trait only declares are none."""
    block = found = None
    end = -1
    for line in text.split("\n"):
        start, end = end + 1, end + 1 + len(line)
        block = block_in(line, start) or block
        declared = DECLARED.match(line)
        if declared:
            margin, public, name = declared.groups()
            found, has_body = (name, start, public == "pub "), line.endswith("{")
        elif found and not has_body:
            has_body = line == margin + "{" or line.startswith(margin + ")") and line.endswith("{")
            found = None if line.endswith(";") and is_closed(text[found[1]:end]) else found
        if found and line == margin + "}":
            name, first, public = found
            contract, body = contract_in(text[first:end], margin, first)
            if margin:
                public = public or bool(block.trait)
                contract = contract or members_after(name, text[block.start:first])
                yield Function(f"{block.type}::{name}", first, end, contract, body, public, f"{block.folder}/{name}")
            else:
                yield Function(name, first, end, contract, body, public, name)
            found = None


def is_closed(text):
    """Whether every brace that a text opens is closed in it."""
    return text.count("{") == text.count("}")


class Block(NamedTuple):
    """An impl, a trait or a module within a file."""
    type: str  # whose functions it has, without its parameters' bounds: Controls, Option<u64>
    trait: str  # of an impl of a trait, as written: From<HostNumber>
    start: int
    folder: str  # of its functions' proofs, from that of the module


def block_in(line, start):
    """The impl, trait or module that a line begins, or None."""
    named = re.match(r"(?:pub(?:\(\w+\))? )?(?:trait (\w+).*|mod (\w+)) \{$", line)
    if named:
        return Block(named[1] or named[2], "", start, named[1] or named[2])
    said = re.match(r"impl\b(.*) \{$", line)
    if not said:
        return None
    parameters, rest = bracketed(said[1])
    trait, _, of = rest.strip().rpartition(" for ")
    own = set(re.findall(r"[\w']+", re.sub(r":[^,]*", "", parameters)))
    return Block(of, trait, start, words_of(of, own) + words_of(trait, own))


def bracketed(text):
    """What stands in the angle brackets that a text begins with, and what stands after them."""
    depth = 0
    for place, letter in enumerate(text):
        depth += (letter == "<") - (letter == ">")
        if depth == 0:
            return text[1:place], text[place + (letter == ">"):]
    return "", text


def words_of(named, own):
    """The words of a type or trait as the name of an impl's folder has them: Option<u64> is OptionU64. Its own parameters are left out."""
    words = re.findall(r"'?\w+", re.sub(r"\w+::", "", named.replace("&", "Ref ")))
    return "".join(word[:1].upper() + word[1:] for word in words if word not in own and word[0] != "'")


def members_after(name, text):
    """The ghost members of an impl that say what its function of this name promises."""
    return " ".join(f"ghost {member} = {{ {' '.join(term.split())} }}" for member, term in MEMBER.findall(text) if member in (name, name + "_gives"))


def contract_in(text, margin, start):
    """The contract of a function, and where its body begins."""
    clause = re.search(r"^\s+(?:requires|ensures)\b", text, re.M)
    brace = re.search(rf"^{margin}\{{$", text, re.M)
    if not brace:  # the brace ends the signature's last line
        return "", start + text.index("{")
    contract = text[clause.start():brace.start()] if clause else ""
    return " ".join(contract.split()), start + brace.start()


def function_at(file, text, place):
    """The function whose lines a place of a .rt file lies in, as the path of its proof, with the modules, or None."""
    for function in functions(text):
        if function.start <= place <= function.end:
            return "/".join(filter(None, [module_of(file), function.folder]))
    return None


def leading_comment(text):
    """The comment that a .rt file begins with, without its marks."""
    lines = []
    for line in text.split("\n"):
        if not line.startswith("//"):
            break
        lines.append(unmarked(line))
    return "\n".join(lines).strip()


def unmarked(line):
    """A comment line without its mark."""
    return line[2:].removeprefix("/").removeprefix("!").removeprefix(" ")


def first_difference(old, new):
    """The number of the first line in which two texts differ."""
    old, new = old.split("\n"), new.split("\n")
    return next((i for i, (a, b) in enumerate(zip(old, new), 1) if a != b), min(len(old), len(new)) + 1)


def kind_of(crate, places):
    """What a wrong program with these places is: a `program`, which changes code; a `contract`, which changes what is claimed of
    code, in a function's `ensures` or `requires` or in the specs that contracts are stated with; or a `definition` of crate reading,
    whose specs are the definitions that a reader must believe."""
    if all(path.startswith("specs/") for path, _, _ in places):
        return "definition" if crate == "reading" else "contract"
    changed = [(f, place) for path, text, place in places if path.endswith(".rt") for f in functions(text) if f.start <= place <= f.end]
    return "contract" if changed and all(place < f.body for f, place in changed) else "program"
