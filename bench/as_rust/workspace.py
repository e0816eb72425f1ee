"""The workspace that cargo builds: crates of a checkout as Rust, the shim of std, what stands for `kio`, and the measuring programs over them.

Each crate has the name and the modules that it has in the checkout, and stands on what `crates.txt` says. Only files whose text changed are written, so that
cargo builds what stands on them alone."""
import os
import re

from as_rust.strip import PLACES, Unknown, strip

HERE = os.path.dirname(os.path.abspath(__file__))

# What all programs call (runner/src/stages.rs), and what each calls besides: these crates are built, with all that they stand on.
SHARED = ("dump_reader", "pc_rules", "env_check", "reduce_machine")
CALLED = {
    "check": (),
    "cert": ("cert_rules", "cert_text", "dump_printer", "env_making", "guard_check", "kio"),
    "verify": ("cert_rules", "cert_text", "env_cert", "guard_check"),
    "erase": ("box_terms", "erase", "guard_check", "lazy_conversion", "type_infer"),
}

# Crates of the checkout for which one of this folder stands, and libraries of the toolchain that the shim has, or of which nothing is left.
STOOD_FOR = ("kio",)
LIBRARIES = ("indexmap", "itoa", "memchr", "smallvec", "thiserror")

PROFILE = """
[profile.release]
opt-level = 3
debug = 1
codegen-units = 1
lto = "thin"
panic = "abort"
"""


def read(path):
    """The text of a file."""
    with open(path, encoding="utf-8") as source:
        return source.read()


def write(path, text):
    """Writes a file where its text changed."""
    if os.path.exists(path) and read(path) == text:
        return
    os.makedirs(os.path.dirname(path), exist_ok=True)
    with open(path, "w", encoding="utf-8") as out:
        out.write(text)


def files_in(folder):
    """The files of a folder and of those in it, by their paths below it."""
    return sorted(os.path.relpath(os.path.join(at, name), folder) for at, _, names in os.walk(folder) for name in names)


def write_all(folder, texts):
    """Writes a folder's files, by their paths below it, and takes away what else is in it."""
    for path in files_in(folder):
        if path not in texts:
            os.remove(os.path.join(folder, path))
    for path, text in texts.items():
        write(os.path.join(folder, path), text)


def crates_of(checkout):
    """What each crate of a checkout stands on."""
    lines = re.findall(r"^(\w+):(.*)$", read(os.path.join(checkout, "crates.txt")), re.M)
    return {name: below.split() for name, below in lines}


def needed(crates, roots):
    """These crates and all that they stand on, each behind those."""
    found = []

    def take(name, above):
        """Takes a crate, on which another one stands, and all below it."""
        if name in found or name in LIBRARIES:
            return
        if name not in crates:
            raise Unknown(f"crates.txt: {above} names {name}, which is no crate there, and the shim has no such library")
        if name not in STOOD_FOR:
            for below in crates[name]:
                take(below, name)
        found.append(name)

    for root in roots:
        take(root, "a program of bench/as_rust/workspace.py")
    return found


def manifest(name, below):
    """A crate's Cargo.toml."""
    lines = ["[package]", f'name = "{name}"', 'version = "0.1.0"', 'edition = "2021"', "", "[dependencies]"]
    return "\n".join(lines + [f'{it} = {{ path = "../{it}" }}' for it in below]) + "\n"


def stripped(checkout, name):
    """The sources of a crate of a checkout as Rust, by their paths."""
    folder, texts = os.path.join(checkout, "crates", name, "src"), {}
    for path in files_in(folder):
        if path.endswith(".rt") and os.path.basename(path) != "tests.rt":
            text = strip(read(os.path.join(folder, path)), f"{name}/src/{path}")
            texts[path[:-3] + ".rs"] = "#![allow(warnings)]\n" + text if path == "lib.rt" else text
    return texts


def look_for_places(checkout, crates):
    """Fails where the file of a place that stands in one file alone isn't there any more; where the place itself isn't, stripping fails."""
    for place in PLACES:
        if place.file.split("/")[0] not in crates or not os.path.isfile(os.path.join(checkout, "crates", place.file)):
            raise Unknown(f"crates/{place.file}, which has {place.what}, isn't there, or no program stands on its crate")


def own(name, programs=()):
    """The sources of a crate of this folder, by their paths; of the programs, those that are built."""
    folder = os.path.join(HERE, name, "src")
    dropped = [f"bin/{it}.rs" for it in CALLED if it not in programs]
    return {path: read(os.path.join(folder, path)) for path in files_in(folder) if path not in dropped}


def write_crate(folder, name, below, texts):
    """Writes a crate of the workspace."""
    write(os.path.join(folder, name, "Cargo.toml"), manifest(name, below))
    write_all(os.path.join(folder, name, "src"), texts)


def write_workspace(checkout, folder, programs):
    """Writes the workspace of these programs over a checkout into a folder."""
    crates = crates_of(checkout)
    built = needed(crates, [*SHARED, *(name for program in programs for name in CALLED[program])])
    look_for_places(checkout, built)
    for name in built:
        is_own = name in STOOD_FOR
        below = [] if is_own else [it for it in crates[name] if it in built]
        write_crate(folder, name, ["shim", *below], own(name) if is_own else stripped(checkout, name))
    write_crate(folder, "shim", [], own("shim"))
    write_crate(folder, "runner", ["shim", *built], own("runner", programs))
    members = ", ".join(f'"{name}"' for name in [*built, "shim", "runner"])
    write(os.path.join(folder, "Cargo.toml"), f'[workspace]\nresolver = "2"\nmembers = [{members}]\n{PROFILE}')
