#!/usr/bin/env python3
"""Writes the sources of the library for C as plain Rust, which rustc builds in seconds on any machine: plain.py OUT

OUT is a folder that becomes the module `plain` of a crate: OUT/mod.rs and a folder for each crate of the library. `plain.py --library OUT`
writes OUT/lib.rs besides, the root of a library by itself, with the module in OUT/plain.

What is left out: clauses, ghost code, attributes of the prover. What is put in its place: `shim/rstd` for the standard library, with the same
names over Rust's own; `shim/atomic_table.rs`, `shim/counted_slot.rs` and `shim/crossbeam_utils.rs` for the crates of the kit; and
`shim/handle.rs` for the handle's own file. Nothing is proved of what comes out: neither this script, nor the shims, nor what rustc makes of it.
"""
import os
import re
import shutil
import subprocess
import sys

TOP_CRATE = "sto_c"
KIT_SHIMS = ("atomic_table", "counted_slot", "crossbeam_utils")
# (what of the top crate knows pointers is written anew in shim/handle.rs)
REPLACED = {(TOP_CRATE, "handle.rt"), (TOP_CRATE, "loose.rt")}
HERE = os.path.dirname(os.path.abspath(__file__))
REPOSITORY = os.path.dirname(os.path.dirname(HERE))
CLAUSE = re.compile(r"(?<![\w.])(requires|ensures|invariant|measure|decreases)\*?(?!\w)")
GHOST = re.compile(r"(?<![\w.])(pub(\(crate\))? )?ghost\s")
DROP = re.compile(r"(?<![\w.])impl(<[^{]*?>)? Drop for ")
NAME = re.compile(r"[A-Za-z_'][\w']*")
LET = re.compile(r"(?<![\w.])(?<!if )(?<!while )(?<!&& )let ([^=;]*[^=;!<>\s]) = ")
BOUND = re.compile(r"(?<![\w:])(mut )?([a-z_][a-z0-9_]*)(?!\w|::|\(|:)")


class Refused(Exception):
    """Sources of a form that the script does not know."""


def read(path):
    with open(path, encoding="utf-8") as file:
        return file.read()


def write(path, text):
    os.makedirs(os.path.dirname(path), exist_ok=True)
    with open(path, "w", encoding="utf-8") as file:
        file.write(text)


def past_space(text, at):
    while at < len(text) and text[at].isspace():
        at += 1
    return at


def past_string(text, at):
    """Returns where a string ends that begins at a place."""
    at += 1
    while text[at] != '"':
        at += 2 if text[at] == "\\" else 1
    return at + 1


def past_braces(text, at):
    """Returns where the braces end that open at or behind a place."""
    depth = 0
    while at < len(text):
        if text[at] == '"':
            at = past_string(text, at)
            continue
        depth += {"{": 1, "}": -1}.get(text[at], 0)
        at += 1
        if depth == 0 and text[at - 1] == "}":
            return at
    raise Refused("braces do not close")


def past_ghost(text, found):
    """Returns where an item of ghost code ends: its braces, a proof behind `by`, and the mark that closes it."""
    end = past_braces(text, text.index("{", found.end()))
    then = past_space(text, end)
    if text.startswith("by", then):
        end = past_braces(text, text.index("{", then))
        then = past_space(text, end)
    return then + 1 if text[then : then + 1] in (";", ",") else end


def past_clause(text, found):
    """Returns where a clause ends, or None where the word begins none."""
    at = past_space(text, found.end())
    name = NAME.match(text, at)
    at = past_space(text, name.end()) if name else at
    return past_braces(text, at) if text[at : at + 1] == "{" else None


def skipped(text, at):
    """Returns where the code goes on that is left out from a place on, or None where the code there stays."""
    ghost = GHOST.match(text, at)
    if ghost:
        return past_ghost(text, ghost)
    clause = CLAUSE.match(text, at)
    if clause:
        return past_clause(text, clause)
    # (a value's parts are dropped as ever; Rust does not let a type with a `drop` of its own be taken apart)
    return past_braces(text, at) if DROP.match(text, at) else None


def stripped(text):
    """Returns a source without comments, clauses and ghost code."""
    kept = (line for line in text.split("\n") if not re.match(r"\s*//", line))
    text = re.sub(r"ghost use [^;]*;", "", "\n".join(re.sub(r"\s+// .*$", "", line) for line in kept))
    out, at = [], 0
    while at < len(text):
        begins = at == 0 or text[at - 1] in " \n\t"
        then = skipped(text, at) if begins else None
        if then is None:
            out.append(text[at])
            then = at + 1
        at = then
    return "".join(out)


def end_of_let(text, at):
    """Returns where the expression of a `let` ends that begins at a place, and whether an `else` follows, which older compilers do not know."""
    opened = 0
    while at < len(text):
        if text[at] == '"':
            at = past_string(text, at)
            continue
        opened += {"(": 1, "[": 1, "{": 1, ")": -1, "]": -1, "}": -1}.get(text[at], 0)
        if opened < 0 or opened == 0 and text[at] == ";":
            return at, False
        if opened == 0 and text.startswith(" else {", at) and text[at - 1] != "}":
            return at, True
        at += 1
    raise Refused("a `let` does not end")


def without_let_else(text):
    """Returns a source with each `let .. else` as a match."""
    out, at = [], 0
    for found in LET.finditer(text):
        end, has_else = end_of_let(text, found.end()) if found.start() >= at else (0, False)
        if not has_else:
            continue
        names = BOUND.findall(found[1])
        bound = "".join(f"{mutable}{name}, " for mutable, name in names)
        given = "".join(f"{name}, " for _, name in names)
        pattern, body = found[1].replace("mut ", ""), past_braces(text, end)
        match = f"match {text[found.end() : end]} {{ {pattern} => ({given}), _ => {text[end + len(' else ') : body]} }}"
        out += [text[at : found.start()], f"let ({bound}) = {match}"]
        at = body
    return "".join(out) + text[at:]


def parameter(given):
    """Returns a parameter as C gives it, and the line that makes of it what the code expects."""
    name, kind = given.split(": ", 1)
    inner = re.fullmatch(r"&(mut )?\[(\w+)\]", kind)
    if name == "alloc":
        return [], "    let alloc = Global;\n"
    if not inner:
        return [given], ""
    mut, of = inner[1] or "", inner[2]
    make = f"from_raw_parts{'_mut' if mut else ''}({name}_at, {name}_len)"
    line = f"    let {name} = if {name}_len == 0 {{ &{mut}[] }} else {{ unsafe {{ std::slice::{make} }} }};\n"
    return [f"{name}_at: *{mut or 'const '}{of}", f"{name}_len: usize"], line


def exported(found):
    """Returns the head of a function that C calls: the allocator is made inside, and a slice comes as a pointer and a length."""
    asked = [parameter(it.strip()) for it in re.split(r",(?![^<\[]*[>\]])", found[2]) if it.strip()]
    given = ", ".join(it for names, _ in asked for it in names)
    return f'pub extern "C" fn {found[1]}({given}) -> u32\n{{\n' + "".join(line for _, line in asked)


def converted(text, crate, crates):
    """Returns a source of a crate as plain Rust."""
    text = re.sub(r"#!?\[(tactic|cycle|allow|expect|rustfmt|inline_hint)[^\]]*\]", "", stripped(text))
    derived = lambda it: ", ".join(name for name in re.split(r"[,\s]+", it[1]) if name and name != "Drop")
    text = re.sub(r"#\[derive\(([^)]*)\)\]", lambda it: f"#[derive({derived(it)})]", text)
    text = re.sub(r"\s*\+\s*Drop\b|(?<=\w): Drop(?=[,>])", "", text)
    text = text.replace("#[unsafe(no_mangle)]", "#[no_mangle]")
    text = text.replace("fn fmt<W: fmt::Write>(&self, f: &mut fmt::Formatter<W>)", "fn fmt(&self, f: &mut fmt::Formatter)")
    text = text.replace("items.iter().copied().collect(alloc)", "std::collections::HashSet::of_items(alloc, items)")
    text = re.sub(r"(?<![\w:])crate::", f"crate::plain::{crate}::", text)
    inside = lambda it: f"crate::plain::{it[1]}::" if it[1] in crates or it[1] in KIT_SHIMS else it[0]
    text = re.sub(r"(?<![\w:])(\w+)::", inside, text)
    text = re.sub(r"(?<![\w:])std::", "crate::plain::rstd::", text)
    if crate == TOP_CRATE:
        text = re.sub(r'pub extern "C" fn (\w+)\(([^)]*)\) -> u32\s*\{', exported, text).replace("mod loose;", "")
        text = text.replace("crate::plain::rstd::slice::", "::std::slice::")
    text = f"use crate::plain::rstd::prelude::*;\n{without_let_else(text)}"
    return re.sub(r"\n\s*\n(\s*\n)+", "\n\n", re.sub(r"[ \t]+\n", "\n", text))


def all_below(listed):
    """Returns the crates of the repository that the library for C stands on, by the text of crates.txt."""
    lines = (line.split("#")[0].partition(":") for line in listed.splitlines())
    below = {name.split()[0]: names.split() for name, colon, names in lines if colon}
    found, left = set(), [TOP_CRATE]
    while left:
        crate = left.pop()
        if crate in below and crate not in found:
            found.add(crate)
            left += below[crate]
    return sorted(found)


def sources_of(crate):
    """Returns the names of the sources of a crate, without its tests and what a shim stands for."""
    base = os.path.join(REPOSITORY, "crates", crate, "src")
    found = (os.path.relpath(os.path.join(at, it), base) for at, _, files in os.walk(base) for it in files)
    return sorted(it for it in found if it.endswith(".rt") and not it.startswith("tests") and (crate, it) not in REPLACED)


def sum_of_sources():
    ran = subprocess.run([os.path.join(REPOSITORY, ".ci", "sources"), TOP_CRATE], check=True, stdout=subprocess.PIPE, universal_newlines=True)
    return ran.stdout.strip()


def version():
    return re.search(r'(?m)^#define STO_VERSION "(.*)"$', read(os.path.join(REPOSITORY, "include", "sto.h")))[1]


def write_module(out):
    """Writes the module into a folder, in place of what is there."""
    crates, base = all_below(read(os.path.join(REPOSITORY, "crates.txt"))), os.path.join(REPOSITORY, "crates")
    shutil.rmtree(out, ignore_errors=True)
    for crate in crates:
        for name in sources_of(crate):
            to = "mod.rs" if name == "lib.rt" else f"{name[:-3]}.rs"
            write(os.path.join(out, crate, to), converted(read(os.path.join(base, crate, "src", name)), crate, crates))
    shim = os.path.join(HERE, "shim")
    shutil.copytree(os.path.join(shim, "rstd"), os.path.join(out, "rstd"))
    for name in KIT_SHIMS:
        shutil.copy(os.path.join(shim, f"{name}.rs"), out)
    shutil.copy(os.path.join(shim, "handle.rs"), os.path.join(out, TOP_CRATE))
    build = read(os.path.join(shim, "build.rs")).replace("VERSION", version()).replace("SOURCES", sum_of_sources())
    write(os.path.join(out, "build.rs"), build)
    modules = "".join(f"mod {it};\n" for it in ("build", "rstd", *KIT_SHIMS, *crates))
    write(os.path.join(out, "mod.rs"), f"#![allow(warnings)]\n// Written by bindings/plain/plain.py: nothing is proved of it.\n{modules}")


def main(words):
    is_library = words[:1] == ["--library"]
    if len(words) != 1 + is_library:
        print("usage: plain.py [--library] OUT", file=sys.stderr)
        return 2
    write_module(os.path.join(words[1], "plain") if is_library else words[0])
    if is_library:
        write(os.path.join(words[1], "lib.rs"), "#![allow(warnings)]\nmod plain;\n")
    return 0


if __name__ == "__main__":
    sys.exit(main(sys.argv[1:]))
