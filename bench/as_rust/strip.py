"""Takes the contracts off Rattle sources, so that rustc builds what is left over a shim of std.

What is dropped:

- ghost items: ghost imports, what a trait or the model of a type means in clauses (`ghost view = ..;`), ghost parameters;
- the clauses of a signature, `requires` and `ensures`; of a trait's call without a body the semicolon stays;
- the impls of `Model`, `Owns` and `Move`, which say what a value is in a clause, and their imports;
- the attributes `cycle` and `tactic`, and claims that are proved (`prove!`);
- tests;
- `Drop` in derives and in bounds, since Rust lets go of a value of any type; `Error` in derives, with the attributes of thiserror and its import, since
  nobody asks for an error's text.

What is put in place of what:

- of std's modules `alloc`, `rc` and `collections`, and of the libraries smallvec, indexmap, itoa and memchr: those of the shim, whose calls take the allocator
  `Global` as Rattle's do. The shim's `Vec`, `Box` and `String` are in scope everywhere (`shim::prelude`). It asks Rust's allocator for memory, and want of
  memory ends the program;
- of `vec![in alloc; item; count]` and `to_vec(alloc)`: calls of the shim;
- of what stands in one file alone (`PLACES`): of the raw pointers by which `stamps` turns a mark behind a `&`, a `Cell`; of the hand-written drop of the
  shared lists of `pc_rules`, which moves out of `self`, a loop over a `&mut self`.

For the crate `kio` another stands as a whole (`workspace.py`). A place that isn't found any more ends the run by its name (`Unknown`), and so does a form of
Rattle that is left when all this has been done. What else Rust doesn't know its compiler tells."""
import collections
import re


class Unknown(Exception):
    """A form of the sources that isn't known, or one that is known and isn't there any more."""


Place = collections.namedtuple("Place", "file what old new")

PLACES = (
    Place("stamps/src/lib.rt", "the field of a stamp", "    mark: bool,\n", "    mark: std::cell::Cell<bool>,\n"),
    Place("stamps/src/lib.rt", "the making of a stamp", "Stamp { mark: false }", "Stamp { mark: std::cell::Cell::new(false) }"),
    Place("stamps/src/lib.rt", "the raw pointer of a stamp", """\
        let mine = &raw const self.mark as *mut bool;
        let theirs = &raw const other.mark;
        unsafe {
            let before = theirs.read();
            mine.write(!before);
            before != theirs.read()
        }
""", """\
        let before = other.mark.get();
        self.mark.set(!before);
        before != other.mark.get()
"""),
    Place("pc_rules/src/shared_list.rt", "the drop of shared lists", """\
    fn drop(mut self) {
        loop {
            let SharedList { first } = self;
            match first {
                None => return,
                Some(rc) => match Rc::into_inner(rc) {
                    None => return,
                    Some(Cell { item: _, below }) => self = below,
                },
            }
        }
    }
""", """\
    fn drop(&mut self) {
        let mut first = self.first.take();
        while let Some(mut cell) = first.and_then(Rc::into_inner) {
            first = cell.below.first.take();
        }
    }
"""),
)

# An argument of a macro, with at most one pair of brackets.
ARGUMENT = r"((?:[^;\[\]]|\[[^\]]*\])+)"

# Forms that stand within the code: each is replaced wherever it stands.
REPLACED = tuple((re.compile(form, re.M), new) for form, new in (
    (r"^use std::marker::(?:Model|\{Move, Owns\});\n", ""),
    (r"^use thiserror::Error;\n", ""),
    (r"^ *#\[error\(.*\)\]\n", ""),
    (r"\bprove!\([^;]*\);", ""),
    (r": Drop\b(?! for)", ""),
    (r" \+ Drop\b", ""),
    (r"\buse std::(alloc|rc|collections)::", r"use shim::\1::"),
    (r"\buse (smallvec|indexmap|itoa|memchr)::", r"use shim::\1::"),
    (rf"\bvec!\[in (\w+); {ARGUMENT}; {ARGUMENT}\]", r"Vec::filled(\1, \2, \3)"),
    (r"\.to_vec\((\w+)\)", r".to_vec_with(\1)"),
))

DERIVE = re.compile(r"^( *)#\[derive\(([^)]*)\)\]\n", re.M)
NOT_DERIVED = ("Drop", "Error")

# What may hold braces that open no block: strings, characters and comments.
NO_CODE = re.compile(r'''"(?:[^"\\]|\\.)*"|'(?:[^'\\]|\\.)'|//.*''')

# Forms of which none is left when a file has been stripped, by what they are called in an error.
LEFT = tuple((re.compile(form), what) for form, what in (
    (r"\bghost\b", "a ghost item"),
    (r"^\s*(?:requires|ensures)\b", "a clause"),
    (r"\bprove!", "a claim that is proved"),
    (r"#!?\[(?:cycle|tactic|error|test)\b", "an attribute of Rattle"),
    (r"\bimpl\b.*\b(?:Model|Owns|Move) for\b", "the model of a type"),
    (r"\bunsafe\b|&raw (?:const|mut)\b", "code with raw pointers"),
    (r"\bfn drop\(mut self\)", "a hand-written drop"),
    (r"[:+] Drop\b", "a bound by Drop"),
    (r"\b\w+!?[\[(]in \w+;", "a macro that takes an allocator"),
    (r"\bstd::(?:alloc|rc|collections|vec|boxed|string|sync|io)\b", "a module of std that the shim must have"),
))


def end_of(lines, at, file, endings=("",), blocks=0):
    """The line behind the item that begins at a line. It ends where all its braces are closed, of which it has so many at least, by one of the endings."""
    opened = closed = 0
    for end in range(at, len(lines)):
        code = NO_CODE.sub("", lines[end]).rstrip()
        opened += code.count("{")
        closed += code.count("}")
        if opened <= closed and opened >= blocks and code.endswith(endings):
            return end + 1
    raise Unknown(f"crates/{file}: what begins in line {at + 1} has no end: {lines[at].strip()}")


def past_ghost(lines, at, file):
    """Behind a ghost item; nothing is put in its place."""
    return end_of(lines, at, file, endings=(";", ",", "}")), []


def past_clause(lines, at, file):
    """Behind a clause. The last one of a call without a body ends by the semicolon of the call, which stays."""
    end = end_of(lines, at, file, blocks=1)
    return end, [";"] if lines[end - 1].rstrip().endswith("};") else []


def past_block(lines, at, file):
    """Behind an item with a block."""
    return end_of(lines, at, file, blocks=1), []


def past_line(lines, at, file):
    """Behind an item of one line."""
    return at + 1, []


def past_test(lines, at, file):
    """Behind what stands for tests alone: a module in a file of its own, or a block."""
    if lines[at + 1].rstrip().endswith(";"):
        return at + 2, []
    return end_of(lines, at + 1, file, blocks=1), []


# Items that are dropped whole, by how their first line begins.
DROPPED = tuple((re.compile(form), past) for form, past in (
    (r"(?:pub(?:\(crate\))? )?ghost ", past_ghost),
    (r"(?:requires|ensures)\b", past_clause),
    (r"#!?\[(?:cycle|tactic)\b", past_line),
    (r"impl(?:<.*>)? (?:std::marker::)?(?:Model|Owns|Move) for\b", past_block),
    (r"#\[cfg\(test\)\]$", past_test),
    (r"const _: \(\) = prove!", past_line),
))


def placed(text, file):
    """A file's text with Rust in the places that stand in it alone."""
    for place in PLACES:
        if place.file == file:
            if text.count(place.old) != 1:
                raise Unknown(f"crates/{file}: {place.what} isn't found as bench/as_rust/strip.py knows it")
            text = text.replace(place.old, place.new)
    return text


def without_items(text, file):
    """A file's text without the items that only Rattle has."""
    lines, kept, at = text.split("\n"), [], 0
    while at < len(lines):
        begins = lines[at].strip()
        past = next((past for form, past in DROPPED if form.match(begins)), None)
        if past is None:
            kept.append(lines[at])
            at += 1
        else:
            at, instead = past(lines, at, file)
            kept += instead
    return "\n".join(kept)


def derived(found):
    """The line of a derive without what isn't derived in Rust; nothing, where nothing is left."""
    names = [it for it in found.group(2).split(", ") if it not in NOT_DERIVED]
    return f"{found.group(1)}#[derive({', '.join(names)})]\n" if names else ""


def with_prelude(text):
    """A file's text with the shim's names in scope, behind the comment and the attributes of the file itself."""
    lines = text.split("\n")
    at = 0
    while at < len(lines) and (not lines[at].strip() or lines[at].startswith(("//!", "#!["))):
        at += 1
    return "\n".join(lines[:at] + ["use shim::prelude::*;"] + lines[at:])


def look_for_left(text, file):
    """Fails where a form of Rattle is left outside of comments."""
    for line in text.split("\n"):
        code = NO_CODE.sub("", line)
        for form, what in LEFT:
            if form.search(code):
                raise Unknown(f"crates/{file}: {what} is left: {line.strip()}")


def strip(text, file):
    """A file's text as Rust. The file is named by its path below crates/."""
    text = without_items(placed(text, file), file)
    for form, new in REPLACED:
        text = form.sub(new, text)
    text = with_prelude(DERIVE.sub(derived, text))
    look_for_left(text, file)
    return text
