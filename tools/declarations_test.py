"""The self-test of tools/declarations, on made-up sources: what is declared is compared with what was written by hand, each change of
the sources must be found as stale, and each thing that is not known must be refused. Last, the real sources with two fields exchanged."""
import glob
import os
import re
import shutil
import subprocess
import tempfile

from boundary import Refused
from sources import ROOT

SOURCES = {
    "crates.txt": "# numbers\nreading:\n# structs\nbase: reading\n# calls\nhost staticlib: reading base\n# no part of the library\nother: base\n",
    "crates/reading/src/lib.rt": """pub mod kinds;
pub mod limits;
pub mod widths;

// A step, lent as numbers.
#[derive(Clone, Copy)]
pub struct Step {
    pub from: u64,
    pub to: u64,
}
""",
    "crates/reading/src/limits.rt": "// Limits.\n\n// Of steps.\npub const STEPS: usize = 40;\n",
    "crates/reading/src/widths.rt": "pub const STEP: usize = 2;\n",
    "crates/reading/src/kinds.rt": "pub const GO_ON: u64 = 0x10;\n",
    "crates/reading/specs/Numbers.antt": """-- 01's numbers
abbrev pub side_number : Side → ℕ
side_number Side.Left = 0
side_number (Side.FarRight n) = 7

abbrev pub side_setting_number : Option Side → ℕ
side_setting_number None = 0
side_setting_number (Some s) = ℕ.suc (side_number s)

abbrev pub other_number : Other → ℕ
other_number (Other.One n) = n
""",
    "crates/base/src/lib.rt": "pub mod parts;\n",
    "crates/base/src/parts.rt": """use reading::limits;

// A pair.
#[derive(Clone, Copy)]
#[repr(C)]
pub struct Pair {
    // The flag
    // of it.
    pub is_set: bool,
    pub small: u16, // at the most 7

    // Sizes

    pub large: u64,
}

// Holds pairs */ and more.
#[derive(Clone, Copy)]
#[repr(C)]
pub struct Nest {
    pub pair: Pair,
    pub pairs: [Pair; 3],
    pub steps: [u64; limits::STEPS],
    pub last: u8, // of all
}

// Goes nowhere, so it may hold anything.
pub struct Inner {
    pub x: Unknown,
}
""",
    "crates/host/src/lib.rt": "#![tactic(auto)]\n\npub mod calls;\n",
    "crates/host/src/calls.rt": """ghost use Rattle.base.specs.Nothing.{nothing};

use base::parts;
use base::parts::{
    Nest, Pair,
};

// Answers.
#[derive(Clone, Copy)]
#[repr(C)]
pub struct Answer {
    pub counts: parts::Pair,
    pub answer: u64,
}

// A call with everything.
#[unsafe(no_mangle)]
pub extern "C" fn tivembo_call(
    t: &mut Nest,
    seen: &Pair,
    settings: Pair,
    pairs: &[Pair],
    steps: &mut [u64],
) -> Answer
    ensures { result ≡ nothing }
{
    helper()
}

#[unsafe(no_mangle)]
pub extern "C" fn tivembo_stop(n: usize) {
}

pub fn helper() -> Answer {
}
""",
    "crates/other/src/lib.rt": "#[unsafe(no_mangle)]\npub extern \"C\" fn tivembo_other(n: Unknown) {\n}\n",
}

# What must stand in the files, blanks aside.
DECLARED = {
    "host/src/exported.rs": [
        "fn tivembo_call( t: *mut Nest, seen: *const Pair, settings: Pair, pairs: *const Pair, pairs_len: usize, steps: *mut u64, "
        "steps_len: usize, ) -> Answer; fn tivembo_stop(n: usize); }",
        "/// A call with everything. pub fn call( t: &mut Nest, seen: &Pair, settings: Pair, pairs: &[Pair], steps: &mut [u64], ) -> Answer {",
        "tivembo_call( t, seen, settings, pairs.as_ptr(), pairs.len(), steps.as_mut_ptr(), steps.len(), ) } }",
        "unsafe impl Words for Step {}"],
    "host/src/records.rs": [
        "/// A pair. #[repr(C)] #[derive(Debug, Clone, Copy, Default, PartialEq, Eq, Hash)] pub struct Pair { /// The flag of it. "
        "pub is_set: bool, /// at the most 7 pub small: u16, pub large: u64, }",
        "pub struct Nest { pub pair: Pair, pub pairs: [Pair; 3], pub steps: [u64; limits::STEPS], /// of all pub last: u8, }",
        "Self { pair: Pair::default(), pairs: [Pair::default(); 3], steps: [0; limits::STEPS], last: 0, }",
        "pub struct Answer { pub counts: Pair, pub answer: u64, }"],
    "host/src/constants.rs": [
        "/// Limits. pub mod limits { /// Of steps. pub const STEPS: usize = 40; }",
        "pub const GO_ON: u64 = 16;",
        "/// 01's numbers pub mod side { pub const LEFT: u64 = 0; pub const FAR_RIGHT: u64 = 7; }",
        "pub mod side_setting { pub const UNSET: u64 = 0; pub const LEFT: u64 = 1; pub const FAR_RIGHT: u64 = 8; } "],
    "host/tests/layout.rs": [
        "layout!(Pair, 16, 8, is_set 0, small 2, large 8);",
        "layout!(Nest, 392, 8, pair 0, pairs 16, steps 64, last 384);",
        "layout!(Answer, 24, 8, counts 0, answer 16);"],
    "host/include/tivembo.h": [
        "/* Holds pairs * / and more. */ typedef struct TivemboNest { TivemboPair pair; TivemboPair pairs[3]; "
        "uint64_t steps[TIVEMBO_LIMIT_STEPS]; /* of all */ uint8_t last; } TivemboNest; TIVEMBO_ASSERT(sizeof(TivemboNest) == 392);",
        "TivemboAnswer tivembo_call( TivemboNest *t, const TivemboPair *seen, TivemboPair settings, const TivemboPair *pairs, "
        "size_t pairs_len, uint64_t *steps, size_t steps_len); void tivembo_stop(size_t n);",
        "#define TIVEMBO_LIMIT_STEPS 40 ", "#define TIVEMBO_KIND_GO_ON UINT64_C(16) ", "#define TIVEMBO_SIDE_FAR_RIGHT UINT64_C(7) "],
}
ABSENT = ["tivembo_other", "Unknown", "OTHER", "Inner", "helper"]

PARTS, CALLS = "crates/base/src/parts.rt", "crates/host/src/calls.rt"
# Changes of the sources, each with the first file that is stale then.
STALE = [
    (PARTS, "pub small: u16", "pub small: u32", "host/src/records.rs"),
    (PARTS, "    pub pairs: [Pair; 3],\n    pub steps: [u64; limits::STEPS],\n",
     "    pub steps: [u64; limits::STEPS],\n    pub pairs: [Pair; 3],\n", "host/src/records.rs"),
    (PARTS, "// A pair.", "// A couple.", "host/src/records.rs"),
    (CALLS, "settings: Pair", "settings: Nest", "host/src/exported.rs"),
    (CALLS, "pairs: &[Pair]", "pairs: &mut [Pair]", "host/src/exported.rs"),
    (CALLS, "tivembo_stop", "tivembo_halt", "host/src/exported.rs"),
    ("crates/reading/src/limits.rt", "40", "41", "host/src/constants.rs"),
    ("crates/reading/specs/Numbers.antt", "FarRight n) = 7", "FarRight n) = 8", "host/src/constants.rs"),
]
# Changes that must be refused, each with what is said.
REFUSED = [
    (PARTS, "pub small: u16", "pub small: Unknown", "parts.rt:10: no type Unknown"),
    (PARTS, "pub small: u16", "pub small: i128", "no type i128"),
    (PARTS, "pub small: u16", "pub small: &[u64]", "a name is expected, and & stands there"),
    (PARTS, "pub small: u16", "pub class: u16", "class is a word of C or C++"),
    (PARTS, "// A pair.\n#[derive(Clone, Copy)]\n#[repr(C)]", "// A pair.\n#[derive(Clone, Copy)]", "Pair goes over and is not #[repr(C)]"),
    (PARTS, "limits::STEPS", "limits::OTHERS", "limits::OTHERS is not a constant"),
    (CALLS, "    ensures", "    requires { n }\n    ensures", "asks nothing of its caller, and requires stands there"),
    (CALLS, "tivembo_stop", "stop", "begins with tivembo_"),
    (CALLS, "pairs: &[Pair]", "pairs: &[[u64; 2]]", "a number or a struct is expected"),
    (CALLS, "settings: Pair", "settings: Pair<u64>", "calls.rt:21: , is expected, and < stands there"),
    (CALLS, "pub fn helper", "#[unsafe(no_mangle)]\npub fn helper", "a #[unsafe(no_mangle)] does not stand above"),
    (CALLS, "#[unsafe(no_mangle)]", "#[no_mangle]", "a #[unsafe(no_mangle)] does not stand above"),
    (CALLS, "pub answer: u64", "pub answer: missing::Thing", "missing::Thing is not known"),
    ("crates/reading/src/widths.rt", "2", "3", "STEP is 3, and Step is not so many numbers"),
    ("crates/reading/src/kinds.rt", "0x10", "OTHER + 1", "GO_ON is not a plain number"),
]


def expect(claim, says):
    if not claim:
        raise SystemExit(f"declarations --self-test: {says}")


def lay_out(root, sources):
    for path, text in sources.items():
        os.makedirs(os.path.dirname(os.path.join(root, path)), exist_ok=True)
        with open(os.path.join(root, path), "w", encoding="utf-8") as f:
            f.write(text)


def changed(path, old, new):
    expect(SOURCES[path].count(old) >= 1, f"{path} does not have {old}")
    return {path: SOURCES[path].replace(old, new, 1)}


def check_declared(root):
    for path, texts in DECLARED.items():
        with open(os.path.join(root, path), encoding="utf-8") as f:
            found = re.sub(r"\s+", " ", f.read())
        for text in texts:
            expect(text.strip() in found, f"{path} does not have: {text}\n{found}")
        for word in ABSENT:
            expect(word not in found, f"{path} has {word}")


def check_compiles(root):
    """The header, as C and as C++."""
    header = os.path.join(root, "host/include/tivembo.h")
    for command in (["cc", "-std=c11", "-xc"], ["c++", "-xc++"]):
        if shutil.which(command[0]):
            subprocess.run(command + ["-Wall", "-Wextra", "-Werror", "-pedantic", "-fsyntax-only", header], check=True)


def check_changes(root, stale):
    for path, old, new, first in STALE:
        lay_out(root, changed(path, old, new))
        found = list(stale(root))
        expect(found and re.match(re.escape(first) + r":\d+: ", found[0]), f"{new} in {path} makes {first} stale, and found is {found}")
        lay_out(root, {path: SOURCES[path]})
    for path, old, new, says in REFUSED:
        lay_out(root, changed(path, old, new))
        try:
            expect(False, f"{new} in {path} is not refused, and found is {list(stale(root))}")
        except Refused as refused:
            expect(says in str(refused), f"{new} in {path} is refused with: {refused}")
        lay_out(root, {path: SOURCES[path]})
    expect(not list(stale(root)), "the sources are as before, and something is stale")


def check_real(stale):
    """Two fields of the lent transaction exchanged, in a copy of the sources and of what was written from them."""
    with tempfile.TemporaryDirectory() as root:
        paths = ["crates.txt", "crates/reading/specs/Numbers.antt", "host/src/*.rs", "host/tests/*.rs", "host/include/*.h"]
        paths += ["crates/*/src/**/*.rt"]
        for path in (found for one in paths for found in glob.glob(os.path.join(ROOT, one), recursive=True)):
            copy = os.path.join(root, os.path.relpath(path, ROOT))
            os.makedirs(os.path.dirname(copy), exist_ok=True)
            shutil.copy(path, copy)
        expect(not list(stale(root)), "the declarations are stale before anything is changed: see tools/declarations --check")
        swapped = [file for file in glob.glob(os.path.join(root, "crates/*/src/**/*.rt"), recursive=True) if swap(file)]
        expect(len(swapped) == 1, f"the lent transaction is declared in {swapped}")
        found = [line.split(":")[0] for line in stale(root)]
        expected = ["host/src/records.rs", "host/tests/layout.rs", "host/include/tivembo.h"]
        expect(found == expected, f"fields are exchanged, and stale is {found}")


def swap(path):
    """Exchanges the first two fields of the lent transaction, where a file declares it."""
    with open(path, encoding="utf-8") as f:
        text = f.read()
    field = r"((?:    //.*\n)*    pub .*\n)"
    new = re.sub(rf"(pub struct HostTransaction \{{\n){field}{field}", r"\1\3\2", text)
    with open(path, "w", encoding="utf-8") as f:
        f.write(new)
    return new != text


def run(write, stale):
    with tempfile.TemporaryDirectory() as root:
        lay_out(root, SOURCES)
        expect(len(list(stale(root))) == len(DECLARED), "files that are not there are not stale")
        write(root)
        expect(not list(stale(root)), "what was just written is stale")
        check_declared(root)
        check_compiles(root)
        check_changes(root, stale)
    check_real(stale)
