"""Crates that are checked over compiled ones in a folder, by the code of the kit's own rt: what .ci/wrong_bodies and .ci/quick share.

A folder has NAME.rlib for each library, as ./prove --keep leaves it, and NAME.sources beside it: the sum of the sources that it was made
from. A library without that sum is taken as it is.
"""

import importlib.machinery
import importlib.util
import os
import re
import subprocess
import sys
import tempfile
import threading
import time

import crates

# What rt says of an edit that shows nothing of a contract: it was refused at a limit, or since a proof names what it takes away.
SAYS_LITTLE = "refused, as it must be (only"
NEEDED = ("Crate", "checked", "edited", "handles_of", "must_fail", "rtlib")
FUNCTION = re.compile(r"^( *)(?:pub(?:\([^)]*\))? )?(?:const )?fn (\w+)")
HEAD = re.compile(r"^(?:pub )?(?:impl|trait)\b")


class Unusable(Exception):
    """Why nothing can be checked over a folder."""


def kit():
    """Returns where the kit stands."""
    return os.path.dirname(subprocess.run(["rt", "doc"], stdout=subprocess.PIPE, text=True, check=True).stdout.strip())


def rt_of(folder):
    """Returns rt as a module."""
    loader = importlib.machinery.SourceFileLoader("rt", f"{folder}/bin/rt")
    made = importlib.util.module_from_spec(importlib.util.spec_from_loader("rt", loader))
    loader.exec_module(made)
    lacking = [it for it in NEEDED if not hasattr(made, it)]
    if lacking:
        raise Unusable(f"the rt of this kit has no {lacking[0]}, so nothing can be checked over compiled crates by it")
    return made


def path_of(file):
    """Returns the path of a source file's module below its crate."""
    parts = file.removeprefix("src/").removesuffix(".rt").split("/")
    return [] if parts[-1] in ("lib", "main") else parts


def type_of(head):
    """Returns the name under which a check prints the functions of an impl block or a trait, if it has one."""
    said = re.sub(r"<[^<>]*>", "", re.sub(r"<[^<>]*>", "", re.sub(r"<[^<>]*>", "", head)))
    said = said.partition(" where")[0].rstrip("{ \n")
    words = re.fullmatch(r"(?:pub )?(?:impl|trait)\s*(?:([\w:]+) for )?&?(?:mut )?([\w:]+)(?::.*)?", said.strip())
    return words and words[2].split("::")[-1] + (words[1] or "").split("::")[-1]


def function_at(file, text, at):
    """Returns the path of the function in which a place of a source file stands, as a check prints it, or None where it is in none."""
    lines = text[:at].split("\n") + [text[at:].partition("\n")[0]]
    lines[-2:] = ["".join(lines[-2:])]
    found = next((FUNCTION.match(it) for it in reversed(lines) if FUNCTION.match(it)), None)
    if not found:
        return None
    if not found[1]:
        return "::".join([*path_of(file), found[2]])
    head = next((it for it in reversed(lines) if HEAD.match(it)), "")
    return "::".join([*path_of(file), type_of(head), found[2]]) if head and type_of(head) else None


def functions_of(edit, folder):
    """Returns the functions that an edit changes, or None where it changes anything else."""
    file, found, texts = "", set(), {}
    for line in edit.read_text(encoding="utf-8").split("\n"):
        if line.startswith("file: "):
            file = line.removeprefix("file: ").strip()
        elif line.startswith("old: "):
            if not file.startswith("src/"):
                return None
            text = texts.setdefault(file, open(f"{folder}/{file}", encoding="utf-8").read())
            found.add(function_at(file, text, text.find(line.removeprefix("old: "))))
    return None if None in found else found


class Over:
    """The crates of the repository over the compiled ones of a folder."""

    def __init__(self, folder):
        self.folder = os.path.abspath(folder)
        if not os.path.isdir(self.folder):
            raise Unusable(f"there is no folder {folder}")
        self.rt = rt_of(kit())
        lib = self.rt.rtlib
        # (its first call sets a signal's handler, which only the main thread may)
        lib.guarded()
        os.environ.pop(lib.ALLOW_C, None)
        lib.Crate = self.rt.Crate
        lib.Crate.allowed = self.rt.handles_of(crates.TOP)
        lib.Crate.cuts_libraries = True
        self.crates = {it.name: it for it in lib.crates_below(crates.TOP)}
        self.put_in(self.folder, self.crates)
        self.only, self.check = threading.local(), self.rt.checked
        self.rt.checked = self.checked

    def checked(self, crate, texts, flags, kept):
        """Checks as rt does; of the functions alone that are asked for here, where some are. A check of these that fails is one that the whole fails."""
        asked = getattr(self.only, "functions", None)
        ran = self.check(crate, texts, [*flags, *(it for name in asked or () for it in ("--only", name))], kept)
        if asked and ran.returncode == 1:
            ran.stdout = re.sub(r"only=\d+ proved=\d+\s*\Z", "logic=not-proved\n", ran.stdout)
        return ran

    def refused_by_functions(self, crate, edit):
        """Returns what rt says of an edit that its own functions refuse, over the crate as it was proved, or None."""
        self.only.functions = functions_of(edit, crate.folder)
        try:
            is_well, said = self.rt.must_fail(crate, str(edit), ["--jobs", "1"]) if self.only.functions else (False, "")
        finally:
            self.only.functions = None
        return said if is_well and SAYS_LITTLE not in said else None

    def is_proved(self, name):
        """Returns whether a crate's own compiled library is of its sources."""
        said = self.rt.rtlib.text_of(f"{self.folder}/{name}.sources")
        return bool(said) and said.strip() == crates.sum_of_sources(name)

    def put_in(self, folder, names):
        """Has crates be linked from a folder."""
        for it in names:
            self.crates[it].rlib = f"{folder}/{it}.rlib"

    def overlay(self, room):
        """Has crates be linked from a folder that begins with what the kept one has, for those that are proved anew."""
        for it in os.listdir(self.folder):
            if it.endswith((".rlib", ".sources")):
                os.symlink(f"{self.folder}/{it}", f"{room}/{it}")
        self.put_in(room, self.crates)

    def lacks(self, name):
        """Returns what the folder lacks for a check of a crate, if anything."""
        for it in self.crates[name].below():
            if not os.path.isdir(it.rlib):
                return f"{os.path.dirname(it.rlib)} has no compiled {it.name}"
            said = self.rt.rtlib.text_of(f"{it.rlib[: -len('.rlib')]}.sources")
            if said and said.strip() != crates.sum_of_sources(it.name):
                return f"the compiled {it.name} of {os.path.dirname(it.rlib)} is of other sources"
        return None

    def try_edits(self, name, edits, tell):
        """Tries edits of a crate as rt does, and returns which of them the prover refused. Where the folder has the crate itself, as it stands, the
        functions that an edit changes are tried first, alone. The others are tried over what those before them left, and then from nothing;
        these count only where the crate as it stands is proved over the same folder."""
        lacks = self.lacks(name)
        if lacks:
            raise Unusable(lacks)
        crate, refused, left = self.crates[name], [], []
        for it in edits:
            said = self.refused_by_functions(crate, it) if self.is_proved(name) else None
            (refused if said else left).append(it)
            if said:
                tell(said)
        edits = left
        if not edits:
            return refused
        with tempfile.TemporaryDirectory(prefix="edits-") as kept:
            tried = [self.rt.must_fail(crate, str(it), ["--jobs", "1"], kept) for it in edits]
            if self.rt.checked(crate, {}, ["--jobs", "1"], kept).returncode:
                raise Unusable("the crate is not proved as it stands")
        for edit, (is_well, said) in zip(edits, tried):
            if not is_well:
                is_well, said = self.rt.must_fail(crate, str(edit), ["--jobs", "1"])
            tell(said)
            if is_well and SAYS_LITTLE not in said:
                refused.append(edit)
        return refused

    def layout_faults(self, names):
        """Yields the crates whose files are not laid out as rt fmt does."""
        for it in names:
            with tempfile.TemporaryFile("w+", errors="replace") as said:
                if self.rt.rtlib.fmt(self.crates[it].folder, "--check", said):
                    yield it

    def prove(self, name, until):
        """Proves a crate, and puts a library in the place of the kept one, for those above it. Returns its status, None where time was over, and
        what was said. What is linked is an overlay."""
        crate = self.crates[name]
        words, new = crate.words(["--jobs", "1", "--empty-contracts"], keeps=False), f"{crate.rlib}.new"
        how = ["build", *words, "--statements", "-o", new] if crates.makes_library(name) else ["check", *words]
        said = {"stdin": subprocess.DEVNULL, "stdout": subprocess.PIPE, "stderr": subprocess.STDOUT, "text": True, "errors": "replace"}
        with subprocess.Popen([*self.rt.rtlib.guarded(), self.rt.rtlib.RATTLE, *how], cwd=crate.folder, **said) as ran:
            try:
                text = ran.communicate(timeout=max(until - time.monotonic(), 0.1))[0]
            except subprocess.TimeoutExpired:
                return None, ""
            finally:
                if ran.poll() is None:
                    ran.kill()
        if not ran.returncode and how[0] == "build":
            for it in (crate.rlib, f"{crate.rlib[: -len('.rlib')]}.sources"):
                if os.path.islink(it):
                    os.remove(it)
            os.rename(new, crate.rlib)
        return ran.returncode, text
