#!/usr/bin/env python3
"""Writes the program as ordinary Rust, without contracts and ghost lines, as a Cargo workspace that builds in a minute with
nothing proved: to measure a change of an algorithm before its proof. A small crate, `bench/as_rust.rs`, stands for the parts
of the Rattle library that differ from Rust's.

usage: as_rust.py FOLDER [REPOSITORY]
then:  cargo build --release --offline --manifest-path FOLDER/Cargo.toml; FOLDER/target/release/fast run PROGRAM
"""

import os
import re
import sys

# Words behind which a brace at the front of a line opens a clause.
CLAUSE = re.compile(r"^[ ]*(?:requires|ensures|decreases|invariant)\b[^{}\n]*\{", re.MULTILINE)
GHOST = re.compile(r"^[ ]*ghost\b", re.MULTILINE)
ATTRIBUTE = re.compile(r"^[ ]*#!?\[(?:tactic|cycle)\b", re.MULTILINE)
PROOF = re.compile(r"\bprove!\(")
PAIRS = {"{": "}", "(": ")", "[": "]"}


def closing(text, start):
    """The place after the bracket that closes the one at the start."""
    opening, depth = text[start], 0
    for place in range(start, len(text)):
        if text[place] == opening:
            depth += 1
        elif text[place] == PAIRS[opening]:
            depth -= 1
            if depth == 0:
                return place + 1
    raise SystemExit(f"no end of: {text[start:start + 80]}")


def ghost_end(text, start):
    """The place after the item: after `;` or `,` outside of braces."""
    while text[start] not in ";,":
        start = closing(text, start) if text[start] == "{" else start + 1
    return start + 1


def without(text, pattern, end):
    """The text without what the pattern begins."""
    kept, place = [], 0
    while found := pattern.search(text, place):
        kept.append(text[place : found.start()])
        place = end(text, found)
    return "".join(kept) + text[place:]


def as_rust(text):
    """A source text as Rust."""
    text = without(text, GHOST, lambda text, found: ghost_end(text, found.end()))
    text = without(text, CLAUSE, lambda text, found: closing(text, found.end() - 1))
    text = without(text, ATTRIBUTE, lambda text, found: closing(text, text.index("[", found.start())))
    text = without(text, PROOF, lambda text, found: closing(text, found.end() - 1))
    text = re.sub(r"impl<[^{}]*> Drop for [^{}]*\{\s*fn drop\(self\) \{.*?\n    \}\n\}\n", "", text, flags=re.DOTALL)
    text = re.sub(r"(vec|format)!([\[(])in ([a-z.]+); ", r"shim::\1_in!\2\3, ", text)
    text = text.replace("Box::new(", "shim::boxed(").replace("Box::into_inner(", "shim::unboxed(")
    text = re.sub(r"\bstd::(alloc|marker|rt|fs|io|env|collections)\b", r"shim::\1", text)
    text = text.replace("use std::{", "use shim::{").replace("use indexmap::", "use shim::")
    text = text.replace("FoldHasher", "DefaultHasher")
    text = re.sub(r"(derive\(.*?)(?:, )?\bDrop\)", r"\1)", text)
    text = re.sub(r"^ *///.*\n", "", text, flags=re.MULTILINE)
    text = re.sub(r"^(pub trait \w+) \{", r"\1: Sized {", text, flags=re.MULTILINE)
    text = text.replace("fn main(rt: HostRuntime) -> ExitCode {", "fn main() -> ExitCode {\n    let rt = HostRuntime;")
    front = re.match(r"(?://!.*\n|\s*\n|#!\[.*\n)*", text).end()
    return text[:front] + "#[allow(unused_imports)]\nuse shim::prelude::*;\n" + text[front:]


def main():
    folder = sys.argv[1]
    home = sys.argv[2] if len(sys.argv) > 2 else os.path.join(os.path.dirname(__file__), "..")
    crates = os.path.join(home, "crates")
    names = [name for name in sorted(os.listdir(crates)) if os.path.isdir(os.path.join(crates, name, "src"))]
    names = [name for name in names if not name.endswith(("_tests", "examples"))]
    texts = {}
    for name in names:
        for at, _, files in os.walk(os.path.join(crates, name, "src")):
            for file in files:
                path = os.path.join(at, file)
                with open(path) as source:
                    texts[name, os.path.relpath(path, os.path.join(crates, name))] = as_rust(source.read())
    words = {name: set() for name in names}
    for (name, _), text in texts.items():
        words[name].update(re.findall(r"\b([a-z_]+)::", text))
    for (name, path), text in texts.items():
        write(os.path.join(folder, name, path[:-3] + ".rs"), text)
    for name in names:
        used = "".join(f'{other} = {{ path = "../{other}" }}\n' for other in names if other in words[name] and other != name)
        package = f'[package]\nname = "{name}"\nversion = "0.0.0"\nedition = "2024"\n'
        write(os.path.join(folder, name, "Cargo.toml"), f'{package}[dependencies]\nshim = {{ path = "../shim" }}\n{used}')
    with open(os.path.join(home, "bench", "as_rust.rs")) as source:
        write(os.path.join(folder, "shim", "src", "lib.rs"), source.read())
    write(os.path.join(folder, "shim", "Cargo.toml"), '[package]\nname = "shim"\nversion = "0.0.0"\nedition = "2024"\n')
    members = ", ".join(f'"{name}"' for name in names + ["shim"])
    profile = "[profile.release]\ncodegen-units = 4\noverflow-checks = false\n"
    write(os.path.join(folder, "Cargo.toml"), f'[workspace]\nresolver = "3"\nmembers = [{members}]\n{profile}')


def write(path, text):
    """Writes a file, unless it has this text."""
    os.makedirs(os.path.dirname(path), exist_ok=True)
    if os.path.exists(path) and open(path).read() == text:
        return
    with open(path, "w") as file:
        file.write(text)


main()
