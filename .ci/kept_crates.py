"""A folder of compiled crates, which the programs of others link: what ./prove --keep leaves.

FOLDER/NAME.rlib is a crate, FOLDER/crates/NAME its sources, FOLDER/NAME.sources the sum of all that it was made from, and FOLDER/kit a kit with
these crates among its libraries.
"""

import os
import shutil
import tempfile

import compiled
import crates

PARTS = {"src", "specs", "proofs"}


def is_current(folder, crate):
    """Returns whether a crate is kept of the sources as they stand."""
    try:
        return os.path.isdir(f"{folder}/{crate}.rlib") and crates.read(f"{folder}/{crate}.sources").strip() == crates.sum_of_sources(crate)
    except OSError:
        return False


def keep(copy, folder, crate, of_sources):
    """Puts a crate that was proved in a copy into the folder, in place of that of other sources."""
    os.makedirs(f"{folder}/crates", exist_ok=True)
    made = f"{copy}/crates/{crate}"
    with tempfile.TemporaryDirectory(prefix=".new-", dir=folder) as room:
        shutil.copytree(f"{made}/out/rlib/{crate}.rlib", f"{room}/rlib", symlinks=True)
        shutil.copytree(made, f"{room}/crate", ignore=lambda at, names: set(names) - PARTS if at == made else ())
        with open(f"{room}/sources", "w", encoding="utf-8") as file:
            file.write(f"{of_sources}\n")
        # (the sum comes last, so that what is half there counts for nothing)
        for new, path in (("rlib", f"{crate}.rlib"), ("crate", f"crates/{crate}"), ("sources", f"{crate}.sources")):
            put(f"{room}/{new}", f"{folder}/{path}", f"{room}/old-{new}")


def put(new, path, aside):
    """Puts a file or folder in the place of what stands there."""
    if os.path.lexists(path):
        os.rename(path, aside)
    os.rename(new, path)


def link_all(from_folder, to, but=()):
    os.makedirs(to)
    for it in sorted(os.listdir(from_folder)):
        if it not in but:
            os.symlink(f"{from_folder}/{it}", f"{to}/{it}")


def make_kit(folder):
    """Makes a kit of links to the one that is installed, which has the kept crates beside its own libraries."""
    of_kit = compiled.kit()
    with tempfile.TemporaryDirectory(prefix=".new-", dir=folder) as room:
        link_all(of_kit, f"{room}/kit", but=("bin", "rattle", "rlibs"))
        # (rt finds its kit by where it stands itself, links followed)
        link_all(f"{of_kit}/bin", f"{room}/kit/bin", but=("rt", "rtlib.py"))
        for it in ("rt", "rtlib.py"):
            shutil.copy(f"{of_kit}/bin/{it}", f"{room}/kit/bin/{it}")
        link_all(f"{of_kit}/rlibs", f"{room}/kit/rlibs")
        link_all(f"{of_kit}/rattle", f"{room}/kit/rattle")
        for it in crates.names_in(folder, ".sources"):
            name = it.removesuffix(".sources")
            os.symlink(f"../../{name}.rlib", f"{room}/kit/rlibs/{name}.rlib")
            os.symlink(f"../../crates/{name}", f"{room}/kit/rattle/{name}")
        put(f"{room}/kit", f"{folder}/kit", f"{room}/old")
