"""The boundary as Rust: the declarations with a safe function over each, the records, the constants, and the test of the layout. What
tools/declarations writes; each function here gives the text of a file, which rustfmt then lays out."""
import re
import subprocess
import textwrap

from boundary import PREFIX, Array, Lent, Record, Slice

BY = "Written by tools/declarations from the Rattle sources in crates/; not to be changed by hand."
MOST_DERIVED = 32  # `Default` is derived for arrays up to this length
MOST_ARGUMENTS = 7  # clippy's limit


def formatted(text):
    done = subprocess.run(["rustfmt", "--edition", "2021"], input=text, capture_output=True, text=True, check=False)
    if done.returncode:
        raise SystemExit(f"rustfmt: {done.stderr}")
    return done.stdout


def wrapped(text, width):
    """A comment's lines; an empty one stays between two parts."""
    parts = [textwrap.wrap(part, width, break_long_words=False, break_on_hyphens=False) for part in re.split(r"\n\n+", text)]
    return [line for at, part in enumerate(parts) for line in ([""] * (at > 0) + part)]


def comment(mark, text, margin=""):
    return [f"{margin}{mark} {line}".rstrip() for line in wrapped(text, 119 - len(margin + mark))]


def doc(text, margin=""):
    return comment("///", text, margin)


def head(text):
    return [*comment("//!", BY), "//!", *comment("//!", text), ""]


def snake(name):
    """CamelCase in small letters, with underscores between the words."""
    return re.sub(r"(?<=[a-z0-9])(?=[A-Z])", "_", name).lower()


def plain(kind):
    """A type that a record can hold."""
    if isinstance(kind, Array):
        return f"[{plain(kind.of)}; {kind.length}]"
    return kind.name


def safe(kind):
    """A parameter's type in a safe function."""
    if isinstance(kind, (Slice, Lent)):
        of = plain(kind.of)
        return f"&{'mut ' * kind.is_mut}{f'[{of}]' if isinstance(kind, Slice) else of}"
    return plain(kind)


def declared(parameter):
    """A parameter as it is declared: a list is two."""
    name, kind = parameter.name, parameter.type
    if not isinstance(kind, (Slice, Lent)):
        return [f"{name}: {plain(kind)}"]
    pointer = f"{name}: *{'mut' if kind.is_mut else 'const'} {plain(kind.of)}"
    return [pointer, f"{name}_len: usize"] if isinstance(kind, Slice) else [pointer]


def given(parameter):
    """A parameter as the safe function hands it on."""
    name, kind = parameter.name, parameter.type
    if isinstance(kind, Slice):
        return [f"{name}.as_{'mut_' * kind.is_mut}ptr()", f"{name}.len()"]
    return [name]


def result(function):
    return f" -> {plain(function.result)}" if function.result else ""


def joined(parts):
    return ", ".join(part for some in parts for part in some)


def safe_function(function):
    yield from doc(function.doc)
    if len(function.parameters) > MOST_ARGUMENTS:
        yield "#[allow(clippy::too_many_arguments)]"
    parameters = ", ".join(f"{p.name}: {safe(p.type)}" for p in function.parameters)
    yield f"pub fn {function.name.removeprefix(PREFIX)}({parameters}){result(function)} {{"
    kinds = [p.type for p in function.parameters]
    reasons = ["the contract has no `requires`"]
    if any(isinstance(kind, (Slice, Lent)) for kind in kinds):
        reasons.append("what is lent stays borrowed for the whole call")
    if any(isinstance(kind, (Slice, Lent)) and kind.is_mut for kind in kinds):
        reasons.append("what is written is borrowed by nobody else")
    yield from comment("//", f"SAFETY: {'; '.join(reasons)}.", "    ")
    yield f"    unsafe {{ {function.name}({joined(map(given, function.parameters))}) }}"
    yield "}"
    yield ""


def used_records(boundary):
    """The names of the records that parameters and results have."""
    kinds = [p.type for f in boundary.functions for p in f.parameters] + [f.result for f in boundary.functions]
    kinds = [kind.of if isinstance(kind, (Slice, Lent)) else kind for kind in kinds]
    return {kind.name for kind in kinds if isinstance(kind, Record)}


def exported(boundary):
    """src/exported.rs"""
    words = [record.name for record in boundary.records if record.is_words()]
    lines = head("The calls of the static library, and a safe function over each. A lent list goes over as a pointer to its first entry "
                 "and then its length. All `unsafe` code of the crate is in this file and in src/words.rs.")
    lines += ["#![allow(unsafe_code)]", ""]
    lines.append(f"use crate::records::{{{', '.join(sorted(used_records(boundary) | set(words)))}}};")
    lines += ["use crate::words::Words;", "", 'extern "C" {']
    for function in boundary.functions:
        lines.append(f"fn {function.name}({joined(map(declared, function.parameters))}){result(function)};")
    lines += ["}", ""]
    for function in boundary.functions:
        lines += safe_function(function)
    lines.append("// SAFETY: each is `#[repr(C)]` and made of `u64` alone.")
    lines += [f"unsafe impl Words for {name} {{}}" for name in words]
    return formatted("\n".join(lines) + "\n")


def zero(kind):
    if isinstance(kind, Array):
        return f"[{zero(kind.of)}; {kind.length}]"
    if isinstance(kind, Record):
        return f"{kind.name}::default()"
    return "false" if kind.name == "bool" else "0"


def struct(record):
    is_long = any(isinstance(field.type, Array) and field.type.count > MOST_DERIVED for field in record.fields)
    yield from doc(record.doc)
    yield "#[repr(C)]"
    yield f"#[derive(Debug, Clone, Copy, {'' if is_long else 'Default, '}PartialEq, Eq, Hash)]"
    yield f"pub struct {record.name} {{"
    for field in record.fields:
        yield from doc(field.doc, "    ")
        yield f"pub {field.name}: {plain(field.type)},"
    yield "}\n"
    if is_long:
        yield f"impl Default for {record.name} {{"
        yield "/// Zeros alone."
        yield f"fn default() -> Self {{ Self {{ {', '.join(f'{f.name}: {zero(f.type)}' for f in record.fields)} }} }} }}\n"


def records(boundary):
    """src/records.rs"""
    text = "\n".join(line for record in boundary.records for line in struct(record))
    lines = head("The records that are lent, given and answered. A record may hold any numbers at all; a call refuses what 01 does not "
                 "know. A comment stands where the sources have one.")
    lines += ["#![allow(missing_docs)]", ""]
    modules = sorted(set(re.findall(r"; (\w+)::", text)))
    lines += [f"use crate::constants::{module};" for module in modules] + [""]
    return formatted("\n".join(lines + [text]))


def module(group):
    yield from doc(group.doc)
    yield f"pub mod {snake(group.name)} {{"
    for constant in group.constants:
        yield from doc(constant.doc, "    ")
        yield f"pub const {snake(constant.name).upper()}: {constant.type} = {constant.value};"
    yield "}\n"


def constants(boundary):
    """src/constants.rs"""
    lines = head("01's numbers: limits, the widths of records that are lent as lists of numbers, kinds of actions, and the numbers that "
                 "stand for the cases of an enum, a module for each.")
    lines += ["#![allow(missing_docs)]", ""]
    for group in boundary.constants + boundary.numbers:
        lines += module(group)
    return formatted("\n".join(lines))


LAYOUT = """use std::mem::{align_of, offset_of, size_of};

use tivembo::records::*;

/// The size, the alignment and the offsets of a record, in bytes.
macro_rules! layout {
    ($type:ty, $size:expr, $align:expr, $($field:ident $at:expr),*) => {
        assert_eq!((size_of::<$type>(), align_of::<$type>()), ($size, $align));
        $(assert_eq!(offset_of!($type, $field), $at, stringify!($field));)*
    };
}
"""


def layout(boundary):
    """tests/layout.rs"""
    lines = head("The records have the sizes and offsets that follow from the order of the fields in the Rattle sources. That the "
                 "library itself has them is shown by tests/through_calls.rs.")
    lines.append(LAYOUT)
    for record in boundary.records:
        fields = ", ".join(f"{field.name} {at}" for field, at in zip(record.fields, record.offsets()))
        lines += ["#[test]", f"fn {snake(record.name)}() {{", f"layout!({record.name}, {record.size}, {record.align}, {fields});", "}\n"]
    return formatted("\n".join(lines))
