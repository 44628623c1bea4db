"""The crates of the repository as crates.txt has them, what their programs are, and the gate of rt over a copy of some: what the scripts beside it share."""

import os
import re
import shutil
import signal
import subprocess
import sys
import tempfile
import threading

CI = os.path.dirname(os.path.realpath(__file__))
TOP = os.path.dirname(CI)
FAILED = re.compile(r"rt: FAILED: (.*)")


def listed(text=None):
    """Returns each crate of crates.txt with its line, and the crates of the repository that it names."""
    found = {}
    for line in (read(f"{TOP}/crates.txt") if text is None else text).splitlines():
        name, colon, below = line.split("#")[0].partition(":")
        if colon:
            found[name.split()[0]] = line, below.split()
    return {name: (line, [it for it in below if it in found]) for name, (line, below) in found.items()}


def groups():
    """Returns the headings of crates.txt, each with the crates below it. Of several comments before crates the first is their heading."""
    found, heading, is_first = [], "Crates", True
    for line in read(f"{TOP}/crates.txt").splitlines():
        comment = re.match(r"#+ *(.*?)[ .:]*$", line)
        if comment and is_first and comment[1]:
            heading, is_first = comment[1], False
        elif not comment:
            is_first, name = True, line.split("#")[0].partition(":")[0].split()
            if name and (not found or found[-1][0] != heading):
                found.append((heading, []))
            if name:
                found[-1][1].append(name[0])
    return found


def read(path):
    with open(path, encoding="utf-8") as file:
        return file.read()


def names_in(folder, ending):
    """Returns the names of a folder that end so, none where there is no such folder."""
    return sorted(it for it in os.listdir(folder) if it.endswith(ending)) if os.path.isdir(folder) else []


def makes_library(crate):
    """Returns whether other crates can stand on a crate: it is no program, and no library for C."""
    return not os.path.exists(f"{TOP}/crates/{crate}/src/main.rt") and "staticlib" not in listed()[crate][0].split(":")[0].split()


def all_below(named):
    """Returns the named crates and all that they stand on."""
    crates, found, left = listed(), set(), list(named)
    while left:
        name = left.pop()
        if name not in found:
            found.add(name)
            left += crates[name][1]
    return found


def all_above(named):
    """Returns the named crates and all that stand on them."""
    return {it for it in listed() if all_below([it]) & set(named)}


def sum_of_sources(crate, top=TOP):
    """Returns one sum over all that a program is made from, or None where its sources cannot be read."""
    ran = subprocess.run([f"{CI}/sources", crate, top], stdout=subprocess.PIPE, text=True, check=False)
    return None if ran.returncode else ran.stdout.strip()


def proved_program(crate, of_sources):
    """Returns where the proved program of these sources stands, if ./prove has built it."""
    return f"{TOP}/crates/{crate}/out/{crate}-proved-{of_sources}"


def copy_without_edits(names, to):
    """Copies crates into a folder that rt takes for a repository of these crates alone, without the edits that must be refused."""
    os.makedirs(f"{to}/.git")
    with open(f"{to}/crates.txt", "w", encoding="utf-8") as file:
        file.writelines(f"{line}\n" for name, (line, _) in listed().items() if name in names)
    shutil.copy(f"{TOP}/HANDLES", to)
    for it in sorted(names):
        shutil.copytree(f"{TOP}/crates/{it}", f"{to}/crates/{it}", ignore=shutil.ignore_patterns("must-fail", "out"))


def run_gate(copy, progress, stops_early=False, seconds=None):
    """Has rt prove and run the crates of a copy, as a progress hears. Returns its status, its lines, and what failed, which is at most one crate
    where it stops early. What was proved until then is kept. After so many seconds rt is ended, and the status is None."""
    lines, failed, late = [], [], threading.Event()
    how = {"stdin": subprocess.DEVNULL, "stdout": subprocess.PIPE, "stderr": subprocess.STDOUT, "text": True, "errors": "replace"}
    with subprocess.Popen(["rt", "ci"], cwd=copy, **how) as rt, progress:
        timer = threading.Timer(seconds or 0, lambda: (late.set(), rt.terminate()))
        try:
            if seconds is not None:
                timer.start()
            for line in rt.stdout:
                lines.append(line)
                progress.hear(line)
                last = FAILED.match(line)
                failed = re.findall(r"\S+(?: \(\w+\))?", last[1]) if last else failed
                if progress.refused and stops_early:
                    failed = progress.refused[:1]
                    break
            if failed and stops_early:
                rt.terminate()
            # (a pipe that is full would hold up its end)
            lines += rt.stdout
        except BaseException:
            rt.terminate()
            raise
        finally:
            timer.cancel()
    return None if late.is_set() else rt.returncode, lines, failed


def keep_lines(lines):
    """Keeps what rt said in a file of its own, and returns its path."""
    file, path = tempfile.mkstemp(prefix="sto-rt-", suffix=".log")
    with open(file, "w", encoding="utf-8") as log:
        log.writelines(lines)
    return path


def show(text):
    """Shows on a terminal how far it is, in place of what was shown before."""
    if sys.stderr.isatty():
        print(f"\r\033[K{text[: shutil.get_terminal_size().columns - 1]}", end="", file=sys.stderr, flush=True)


def end_when_told():
    """Has the script end as at an error where it is told to, so that rt ends too and copies go. To be told once is enough."""

    def end(number, _):
        signal.signal(number, signal.SIG_IGN)
        sys.exit(128 + number)

    for it in (signal.SIGTERM, signal.SIGHUP):
        signal.signal(it, end)
