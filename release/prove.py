#!/usr/bin/env python3
"""Proves and builds the six programs, several crates at a time, and prints how far it is. `make` calls it.

A crate is proved once those below it are. rt has a tree to itself while it works, so crates that are proved at the
same time are proved in copies of the sources. What rt leaves of a proved crate, out/rlib, is kept in the tree of the
call, and copied into the tree that needs it next. Its stamp is the hash of all texts that it was proved from, so rt
takes it there if the stamp is right, and proves the crate again if it is not.
The crates below the longest chains of others have trees and processors first, and as many jobs as rt chooses. The
others have one job each, which takes the least of the processors, on what those leave free.
What is proved already is not proved again.
"""
import os
import shutil
import subprocess
import sys
import tempfile
import time
from concurrent.futures import FIRST_COMPLETED, ThreadPoolExecutor, wait
from pathlib import Path

TOP = Path(__file__).resolve().parent.parent
PROGRAMS = ["fail_star", "fail_export", "fail_replay", "fail_debug", "fail_window", "fail_answers"]
LOG = TOP / "release/prove.log"
# A program is compiled with all that it calls, which takes about as long as the proof of a library of this many lines.
LINES_OF_A_PROGRAM = 2500
# About what a crate takes in memory while it is proved: more with four jobs, less with one.
BYTES_OF_A_TREE = 5 << 30
MOST_TREES = 4
# What is on no chain of at least this part of the longest one gives way.
LONG = 0.95
NICE = 10


def edges():
    """The crates that the programs stand on, and the programs, lowest first, each with the crates that it uses."""
    uses, found = {}, {}
    for line in (TOP / "crates.txt").read_text().splitlines():
        head, colon, below = line.partition(":")
        if colon and line[0].isalpha():
            uses[head.split()[0]] = below.split()

    def visit(name):
        if name in uses and name not in found:
            for below in uses[name]:
                visit(below)
            found[name] = [below for below in uses[name] if below in uses]

    for name in PROGRAMS:
        visit(name)
    return found


def size(name):
    """How many lines of source, definitions and proofs a crate has, which is about what its proof takes."""
    if name in PROGRAMS:
        return LINES_OF_A_PROGRAM
    files = [file for part in ("src", "specs", "proofs") for file in (TOP / "crates" / name / part).rglob("*.*")]
    return sum(file.read_bytes().count(b"\n") for file in files)


def chains(below):
    """For each crate the size of the longest chain of crates that begins with it and goes up."""
    above = dict.fromkeys(below, 0)
    for name in reversed(below):
        above[name] += size(name)
        for low in below[name]:
            above[low] = max(above[low], above[name])
    return above


def trees_at_once():
    available = next(int(line.split()[1]) << 10 for line in open("/proc/meminfo") if line.startswith("MemAvailable:"))
    return max(1, min(MOST_TREES, len(os.sched_getaffinity(0)), available // BYTES_OF_A_TREE))


def copy_of_sources(to):
    shutil.copytree(TOP / "crates", to / "crates", ignore=lambda _, names: [name for name in names if name == "out"])
    for name in ("crates.txt", "HANDLES"):
        if (TOP / name).exists():
            shutil.copy(TOP / name, to)
    return to


def link_or_copy(source, to):
    """Gives a file a second name, or copies it to another file system. rt replaces the folder of these files as a whole."""
    try:
        os.link(source, to)
    except OSError:
        shutil.copy2(source, to)


def copy_of_folder(source, to):
    if source.is_dir():
        shutil.rmtree(to, ignore_errors=True)
        shutil.copytree(source, to)


def carry(name, come, to):
    """Brings what rt left of a proved crate from one tree into another, if that has none of the same stamp."""
    proved, here = (tree / "crates" / name / "out/rlib" for tree in (come, to))
    stamps = [file.read_text() if file.is_file() else "" for file in (proved / "stamp", here / "stamp")]
    if stamps[0] and stamps[0] != stamps[1]:
        shutil.rmtree(here, ignore_errors=True)
        shutil.copytree(proved, here, copy_function=link_or_copy)


class Making:
    """The state of one call: the order of the crates, how many are done, and the commands that run."""

    def __init__(self):
        self.below = edges()
        self.began = time.monotonic()
        self.done = set()
        self.running = {}

    def rt(self, name, tree, verb, is_first=True):
        """Runs rt in the crate's folder of a tree, and returns whether it proved the crate, and what it printed."""
        how = ["rt", verb] if is_first else ["nice", "-n", str(NICE), "rt", verb, "--jobs", "1"]
        pipes = {"stdin": subprocess.DEVNULL, "stdout": subprocess.PIPE, "stderr": subprocess.STDOUT}
        child = subprocess.Popen(how, cwd=tree / "crates" / name, text=True, errors="replace", **pipes)
        self.running[name] = child
        said = child.communicate()[0]
        del self.running[name]
        built = tree / "crates" / name / "out" / name
        # A program is also run, here without words, so that its status says nothing of the build.
        return child.returncode == 0 or verb == "run" and os.access(built, os.X_OK), said

    def all_below(self, name):
        """The crates that a crate stands on, those below these among them."""
        found = set()
        left = [name]
        while left:
            new = [below for below in self.below[left.pop()] if below not in found]
            found.update(new)
            left += new
        return found

    def prove(self, name, tree, is_first):
        """Proves a crate in a tree to which nothing else is done, and keeps what rt leaves of it."""
        for wanted in [*self.all_below(name), name]:
            carry(wanted, TOP, tree)
        if name not in PROGRAMS:
            proved, said = self.rt(name, tree, "lib", is_first)
            if proved:
                carry(name, tree, TOP)
            return proved, said
        here, there = (each / "crates" / name / "out" for each in (TOP, tree))
        copy_of_folder(here, there)
        proved, said = self.rt(name, tree, "run", is_first)
        if proved:
            copy_of_folder(there, here)
        return proved, said

    def tell(self, name, proved, said):
        with open(LOG, "a", encoding="utf-8") as log:
            log.write(f"== {name}\n{said}")
        if not proved:
            for child in list(self.running.values()):
                child.terminate()
            print("".join(said.splitlines(keepends=True)[-20:]), end="")
            sys.exit(f"make: {name} was not proved; {LOG} has all that was printed")
        self.done.add(name)
        spent = int(time.monotonic() - self.began)
        print(f"{spent // 60:3d}:{spent % 60:02d}  {len(self.done)} of {len(self.below)}  {name}", flush=True)
        if name in PROGRAMS:
            print(f"       crates/{name}/out/{name}")

    def all(self, folder):
        """Proves the programs and every crate below them, in as many trees as memory and processors allow."""
        trees = [copy_of_sources(Path(folder) / str(number)) for number in range(trees_at_once())]
        longest = chains(self.below)
        left = sorted(self.below, key=lambda name: -longest[name])
        with ThreadPoolExecutor(len(trees)) as pool:
            begun = {}
            while left or begun:
                for name in [name for name in left if self.done.issuperset(self.below[name])]:
                    if not trees:
                        break
                    # What a crate waits for has a longer chain, so the crate with the longest one is ready or begun.
                    others = [*left, *(it for it, _ in begun.values())]
                    is_first = longest[name] >= LONG * max(longest[it] for it in others)
                    left.remove(name)
                    tree = trees.pop()
                    begun[pool.submit(self.prove, name, tree, is_first)] = name, tree
                for ended in wait(begun, return_when=FIRST_COMPLETED).done:
                    name, tree = begun.pop(ended)
                    trees.append(tree)
                    self.tell(name, *ended.result())


def main():
    if not shutil.which("rt"):
        sys.exit("make: proving needs rt, the command of the Rattle kit that README.md names")
    LOG.write_text("")
    making = Making()
    with tempfile.TemporaryDirectory(prefix="fail_star-make-") as folder:
        making.all(folder)


if __name__ == "__main__":
    main()
