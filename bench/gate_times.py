#!/usr/bin/env python3
"""Where a run of the gate spends its time: for each crate its proof, its tests and its must-fail edits.

  bench/gate_times.py [--csv FILE] [--edits] [COMMAND ..]    runs COMMAND (`rt ci` where none is given) and watches it
  bench/gate_times.py [--csv FILE] [--edits] --pid PID       watches a run that is under way, to its end

It looks at the checks that the command starts, twice a second, and changes nothing. Times are processor seconds
of a check, so that they tell of its work whatever else the machine did; `from` and `to` are minutes since the start.
Memory is the most that one check held. With --csv each check stands in FILE, with --edits each edit in the table.
Ctrl-C prints what was seen so far. It ends with the command's status. Linux alone, since it reads /proc.
"""
import argparse
import csv
import os
import signal
import subprocess
import sys
import time
from dataclasses import dataclass
from pathlib import Path

PAUSE = 0.5
TICKS = os.sysconf("SC_CLK_TCK")
KINDS = ("proof", "tests", "edits", "built")


@dataclass
class Check:
    """One run of the prover: what it was for, when, and what it took."""

    crate: str
    kind: str
    began: float
    ended: float = 0.0
    seconds: float = 0.0
    megabytes: float = 0.0
    over: str = ""
    edit: str = ""


def stat_of(pid):
    """Returns the parent, the processor seconds and the start of a process, in seconds since the machine's own."""
    text = Path(f"/proc/{pid}/stat").read_text()
    fields = text[text.rindex(")") + 2 :].split()
    return int(fields[1]), (int(fields[11]) + int(fields[12])) / TICKS, int(fields[19]) / TICKS


def words_of(pid):
    return Path(f"/proc/{pid}/cmdline").read_bytes().decode(errors="replace").split("\0")


def held_by(pid):
    """Returns the most memory that a process held, in megabytes."""
    for line in Path(f"/proc/{pid}/status").read_text().splitlines():
        if line.startswith("VmHWM:"):
            return int(line.split()[1]) / 1024
    return 0.0


def over_of(words):
    """Returns what a check of an edit begins with: `seed`, or the number of the edit for which rt copied the seed."""
    return words[words.index("--incremental") + 1].rpartition("/")[2] if "--incremental" in words else ""


def kind_of(words, folder):
    if "rt-edit-" in folder:
        return "edits"
    if "--test" in words:
        return "tests"
    return "built" if "--crate-checked" in words else "proof"


class Watch:
    """The checks below one process, by the number and start of each."""

    def __init__(self, top):
        self.top, self.checks, self.seconds = top, {}, {}

    def look(self):
        """Takes one look at all processes; returns whether the watched one is still there."""
        processes = {}
        for name in os.listdir("/proc"):
            if name.isdigit():
                try:
                    processes[int(name)] = stat_of(name)
                except OSError:
                    pass
        if self.top not in processes:
            return False
        for pid in processes:
            owner = self.owner_of(pid, processes)
            if owner is not None:
                self.note(pid, owner, processes)
        return True

    def owner_of(self, pid, processes):
        """Returns the topmost prover above a process of the watched run (a check may fork), if there is one."""
        owner = None
        while pid in processes and pid != self.top:
            try:
                if "--crate-name" in words_of(pid):
                    owner = pid
            except OSError:
                return None
            pid = processes[pid][0]
        return owner if pid == self.top else None

    def note(self, pid, owner, processes):
        key, now = (owner, processes[owner][2]), time.time()
        try:
            if key not in self.checks:
                words = words_of(owner)
                crate, folder = words[words.index("--crate-name") + 1], os.readlink(f"/proc/{owner}/cwd")
                self.checks[key] = Check(crate, kind_of(words, folder), now, over=over_of(words))
            check = self.checks[key]
            check.megabytes = max(check.megabytes, held_by(pid))
        except (OSError, ValueError):
            return
        check.ended = now
        taken = self.seconds.setdefault(key, {})
        taken[pid, processes[pid][2]] = processes[pid][1]
        check.seconds = sum(taken.values())


def name_edits(checks, root):
    """Gives each check of an edit the edit's name. Where a crate has several edits, rt first checks the crate as it is (the seed), then
    each edit over a copy of what that left, and last the crate over the seed once more. An edit without a seed has none of these."""
    for crate in {it.crate for it in checks}:
        names = sorted(it.stem for it in Path(root, "crates", crate, "must-fail").glob("*.edit"))
        tried = sorted((it for it in checks if it.crate == crate and it.kind == "edits"), key=lambda it: it.began)
        for place, check in enumerate(tried):
            if check.over == "seed":
                check.edit = "(last look)" if any(it.over == "seed" for it in tried[:place]) else "(seed)"
            elif check.over.isdigit():
                check.edit = names[int(check.over)]
            else:
                check.edit = names[0] if len(names) == 1 and place == 0 else "(again)"


def table_of(checks, began, edits):
    """Returns the lines of the table: a crate a row, in the order in which their proofs began."""
    head = ("crate", "proof s", "tests s", "edits", "edits s", "an edit", "all s", "MB", "from", "to")
    rows, firsts = [head], {}
    for check in checks:
        firsts.setdefault(check.crate, check.began)
    for crate in firsts:
        own = [it for it in checks if it.crate == crate]
        rows.append(row_of(crate, own, began))
        if edits:
            of_edits = sorted((it for it in own if it.kind == "edits"), key=lambda it: -it.seconds)
            rows += [(f"  {it.edit}", "", "", "", f"{it.seconds:.0f}", "", "", "", "", "") for it in of_edits]
    rows.append(row_of("all", checks, began))
    widths = [max(len(row[at]) for row in rows) for at in range(len(head))]
    return ["  ".join([row[0].ljust(widths[0]), *(it.rjust(width) for it, width in zip(row[1:], widths[1:]))]) for row in rows]


def row_of(name, checks, began):
    taken = {kind: sum(it.seconds for it in checks if it.kind == kind) for kind in KINDS}
    number = sum(1 for it in checks if it.kind == "edits" and not it.edit.startswith("("))
    each = taken["edits"] / number if number else 0
    most = max((it.megabytes for it in checks), default=0)
    first, last = min(it.began for it in checks), max(it.ended for it in checks)
    parts = [taken["proof"] + taken["built"], taken["tests"], number, taken["edits"], each, sum(taken.values()), most]
    return (name, *(f"{it:.0f}" for it in parts), f"{(first - began) / 60:.1f}", f"{(last - began) / 60:.1f}")


def write_csv(file, checks, began):
    with open(file, "w", newline="", encoding="utf-8") as to:
        out = csv.writer(to, lineterminator="\n")
        out.writerow(("crate", "kind", "edit", "began", "ended", "seconds", "megabytes"))
        for it in checks:
            out.writerow((it.crate, it.kind, it.edit, f"{it.began - began:.1f}", f"{it.ended - began:.1f}", f"{it.seconds:.2f}", f"{it.megabytes:.0f}"))


def main():
    parser = argparse.ArgumentParser(description=__doc__, formatter_class=argparse.RawDescriptionHelpFormatter)
    parser.add_argument("--pid", type=int)
    parser.add_argument("--csv")
    parser.add_argument("--edits", action="store_true")
    parser.add_argument("command", nargs=argparse.REMAINDER, metavar="COMMAND")
    given = parser.parse_args()
    started = None if given.pid else subprocess.Popen(given.command or ["rt", "ci"])
    top, began = given.pid or started.pid, time.time()
    root = os.readlink(f"/proc/{top}/cwd")
    watch = Watch(top)
    for end in (signal.SIGINT, signal.SIGTERM):
        signal.signal(end, signal.default_int_handler)
    try:
        while (started is None or started.poll() is None) and watch.look():
            time.sleep(PAUSE)
    except KeyboardInterrupt:
        print("stopped before the end: what was seen until then", file=sys.stderr)
    checks = sorted(watch.checks.values(), key=lambda it: it.began)
    if not checks:
        print("no check was seen", file=sys.stderr)
        return started.returncode if started else 1
    name_edits(checks, root)
    print("\n".join(table_of(checks, began, given.edits)))
    print(f"{(time.time() - began) / 60:.1f} minutes on {os.cpu_count()} processors")
    if given.csv:
        write_csv(given.csv, checks, began)
    return started.returncode if started else 0


if __name__ == "__main__":
    sys.exit(main())
