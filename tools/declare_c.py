"""The boundary as a C header, which tools/declarations writes."""
from boundary import PREFIX, Array, Lent, Record, Slice
from declare_rust import BY, snake, wrapped

TYPES = {"u8": "uint8_t", "u16": "uint16_t", "u32": "uint32_t", "u64": "uint64_t", "usize": "size_t", "bool": "bool"}
LITERALS = {"u8": "UINT8_C", "u16": "UINT16_C", "u32": "UINT32_C", "u64": "UINT64_C"}  # usize: a plain number
HEAD = f"""The proved calls, for C and C++. {BY}

No call requires anything of the numbers that it is given: what 01 does not know is refused, and a refused call leaves everything that
was lent as it was. Only this is asked, which C cannot check: a pointer to one struct is valid; a pointer to a list, with its length in
the parameter after it, is valid for so many entries, and not null even for none; and what is written, a pointer without const, does
not overlap with anything else that is lent to the same call.

A list of uint64_t for rules, actions, data entries or the journal has so many numbers for each record as TIVEMBO_WIDTH_.. says, in the
order of the fields of the struct: an array of these structs may be lent. Numbers after the last whole record are not looked at.

How to compile and link is in host/README.md."""
OPENING = """#ifndef TIVEMBO_H
#define TIVEMBO_H

#include <stdbool.h>
#include <stddef.h>
#include <stdint.h>

#ifdef __cplusplus
#define TIVEMBO_ASSERT(claim) static_assert(claim, #claim)
extern "C" {
#else
#define TIVEMBO_ASSERT(claim) _Static_assert(claim, #claim)
#endif
"""
CLOSING = """#undef TIVEMBO_ASSERT

#ifdef __cplusplus
}
#endif

#endif"""


def doc(text, margin=""):
    """A comment; what would begin or end one in it is taken apart."""
    lines = wrapped(text.replace("*/", "* /").replace("/*", "/ *"), 114 - len(margin))
    if not lines:
        return []
    lines = [f"{margin}{'   ' if at else '/* '}{line}".rstrip() for at, line in enumerate(lines)]
    return lines[:-1] + [lines[-1] + " */"]


def constant_name(group, constant):
    return f"{PREFIX}{snake(group.one)}_{snake(constant.name)}".upper()


def define(group):
    yield from doc(group.doc)
    for constant in group.constants:
        yield from doc(constant.doc)
        literal = LITERALS.get(constant.type)
        value = f"{literal}({constant.value})" if literal else constant.value
        yield f"#define {constant_name(group, constant)} {value}"
    yield ""


def type_name(kind):
    return f"Tivembo{kind.name}" if isinstance(kind, Record) else TYPES[kind.name]


def held(name, kind, lengths):
    """A field's declaration."""
    brackets = ""
    while isinstance(kind, Array):
        brackets += f"[{lengths.get(kind.length, kind.length)}]"
        kind = kind.of
    return f"{type_name(kind)} {name}{brackets};"


def struct(record, lengths):
    name = type_name(record)
    yield from doc(record.doc)
    yield f"typedef struct {name} {{"
    for field in record.fields:
        yield from doc(field.doc, "    ")
        yield "    " + held(field.name, field.type, lengths)
    yield f"}} {name};"
    yield f"TIVEMBO_ASSERT(sizeof({name}) == {record.size});"
    yield ""


def parameter(one):
    """A parameter's line: a list is two parameters."""
    name, kind = one.name, one.type
    if not isinstance(kind, (Slice, Lent)):
        return f"{type_name(kind)} {name}"
    pointer = f"{'' if kind.is_mut else 'const '}{type_name(kind.of)} *{name}"
    return f"{pointer}, size_t {name}_len" if isinstance(kind, Slice) else pointer


def function(one):
    yield from doc(one.doc)
    result = type_name(one.result) if one.result else "void"
    lines = [parameter(p) for p in one.parameters] or ["void"]
    short = f"{result} {one.name}({', '.join(lines)});"
    if len(short) <= 100:
        yield short
    else:
        yield f"{result} {one.name}("
        yield from (f"    {line}," for line in lines[:-1])
        yield f"    {lines[-1]});"
    yield ""


def header(boundary):
    """include/tivembo.h"""
    groups = boundary.constants
    lengths = {f"{group.name}::{c.name}": constant_name(group, c) for group in groups for c in group.constants}
    lines = doc(HEAD) + [OPENING, "/* Numbers have the size that the library has them in: it is made for 64 bits. */",
                         "TIVEMBO_ASSERT(sizeof(size_t) == 8);", "TIVEMBO_ASSERT(sizeof(bool) == 1);", ""]
    for group in groups + boundary.numbers:
        lines += define(group)
    for record in boundary.records:
        lines += struct(record, lengths)
    for one in boundary.functions:
        lines += function(one)
    return "\n".join(lines + [CLOSING, ""])
