"""The must-fail edits of a crate, read: what edit-errors, edits-by-fact, code-tables and counts share."""
import os
import re
from typing import NamedTuple


class Wrong(NamedTuple):
    """A wrong program, contract or definition."""
    name: str
    table: str  # that its line `# table: NAME` names, or None
    pairs: list  # of texts, as (file, old, new)
    says: str  # its comment without the name


def read(path):
    with open(path, encoding="utf-8", errors="replace") as f:
        return f.read()


def programs(edit):
    """Each wrong program, contract or definition of an edit. They stand apart by an empty line, each under a comment
    `# name: what it does`; with one alone the name is the file's, but for a file wrong_programs_N, wrong_contracts_N or
    wrong_definitions_N."""
    own = os.path.basename(edit)[:-5]
    parts = [part for part in re.split(r"\n\n+", read(edit).strip("\n")) if part]
    for part in parts:
        table = re.search(r"^# table: (\S+)$", part, re.M)
        says = " ".join(line[1:].strip() for line in part.split("\n") if line.startswith("#") and not line.startswith("# table: "))
        named = re.match(r"(\w+): ", says)
        is_named = len(parts) > 1 or re.fullmatch(r"wrong_(?:programs|contracts|definitions)_\d+", own)
        if is_named and not named:
            raise SystemExit(f"{edit}: a wrong program without a name: {says}")
        name = named.group(1) if is_named else own
        yield Wrong(name, table and table.group(1), list(pairs_of(edit, part)), says.removeprefix(name + ": "))


def pairs_of(edit, part):
    """The pairs of texts of one part, as (file, old, new)."""
    path = old = None
    for line in part.split("\n"):
        if line.startswith("file: "):
            path = line[6:]
        elif line.startswith("old: "):
            old = line[5:]
        elif line.startswith("new:"):
            new = line[4:].removeprefix(" ")
            if new == old:
                raise SystemExit(f"{edit}: changes nothing: {old}")
            yield path, old, new
        elif not line.startswith("#"):
            raise SystemExit(f"{edit}: neither a comment nor file:, old: or new:, {line}")


def put(text, old, new, where):
    """The text with the only `old` in it replaced, and where that stood."""
    if text.count(old) != 1:
        raise SystemExit(f"{where}: {text.count(old)} times there: {old}")
    place = text.index(old)
    return text[:place] + new + text[place + len(old):], place


def applied(edit):
    """Each wrong program of an edit with what it changes, as (file, the file's text before, the place in it). The later ones are
    put into what the earlier ones leave, as `rt` does it."""
    crate = os.path.dirname(os.path.dirname(edit))
    files = {}
    for one in programs(edit):
        places = []
        for path, old, new in one.pairs:
            text = files[path] if path in files else read(os.path.join(crate, path))
            files[path], place = put(text, old, new, f"{os.path.relpath(edit, os.path.dirname(os.path.dirname(crate)))}: {one.name}: {path}")
            places.append((path, text, place))
        yield one, places


def edited(edit):
    """The texts of the files that an edit changes, with all of it put in, by their paths in the crate."""
    texts = {}
    for one, places in applied(edit):
        texts.update((path, put(text, old, new, path)[0]) for (path, text, _), (_, old, new) in zip(places, one.pairs))
    return texts
