"""Whether two builds write the same campaigns: the same bytes in the campaign file, the same output and status.

usage: identical.py BEFORE AFTER [SEED [SECONDS]]

Generated programs, each with the four kinds of case and by 1, 2, 4 and 16 workers: a third of the campaigns run at
once, a third stop twice, and a third are by AFTER killed up to twice and go on. Each file that AFTER wrote is audited,
which runs every job once more to its own end. Many generated programs never halt, or only with code in RAM: there is no
campaign of these, and the last lines count them apart. A kill while AFTER makes the file leaves one that `run` refuses;
such a campaign begins again with --fresh, and is counted too. SEED chooses the programs, SECONDS ends earlier.
"""

import os
import pathlib
import random
import subprocess
import sys
import tempfile
import time

TESTS = pathlib.Path(__file__).resolve().parent.parent / "tests/definitions"
sys.path.insert(0, str(TESTS))
sys.dont_write_bytecode = True

import code_in_ram  # noqa: E402
import generate  # noqa: E402

KINDS = ((), ("--pc",), ("--ram-code",), ("--pc", "--ram-code"))
WORKERS = ("1", "2", "4", "16")
LIMITS = (1, 5, 50)  # times the limit of the generated program
PAGE = ("--page", "5")  # of campaigns that are killed: small, so that a kill comes between two pages
WAYS = ("at once", "stopped", "killed")
BEGUN = "campaign file refused: 1 NotACampaign\n"  # of a file whose making was killed


class Builds:
    """Two builds, and what was found of them."""

    def __init__(self, before, after, seed):
        self.before, self.after = (str(pathlib.Path(path).resolve()) for path in (before, after))
        self.dice = random.Random(seed)
        self.campaigns = self.refused = self.others = self.killed = self.begun_again = self.audited = self.wrong = 0

    def killed_twice(self, words):
        for _ in range(2):
            try:
                called(words, self.dice.uniform(0.003, 0.016))
            except subprocess.TimeoutExpired:
                self.killed += 1

    def campaign(self, program, words, way):
        """What a campaign of the program leaves: its statuses and texts, and the file."""
        keep = pathlib.Path("campaign.keep")
        keep.unlink(missing_ok=True)
        words = [program, "run", "program.elf", str(keep), *words, *(PAGE if way == "killed" else ())]
        ends = [called([*words, "--stop-after", jobs]) for jobs in ("7", "31") if way == "stopped"]
        if way == "killed" and program == self.after:
            self.killed_twice(words)
        end = called(words)
        if way == "killed" and program == self.after and end == (6, "", BEGUN):
            self.begun_again += 1
            end = called([*words, "--fresh"])
        return [*ends, end], keep.read_bytes() if keep.exists() else None

    def compare(self, name, words, way):
        """Compares the campaigns of a case by each number of workers; whether there are any."""
        status = 0
        for workers in WORKERS:
            both = [self.campaign(one, [*words, "--workers", workers], way) for one in (self.before, self.after)]
            if both[0] != both[1]:
                self.others += 1
                print(f"differs: {name}, {way}, {' '.join(words)} --workers {workers}", flush=True)
            status = both[1][0][-1][0]
            if status == 0:
                self.campaigns += 1
                self.audit(name, words)
            else:
                self.refused += 1
        return status == 0

    def audit(self, name, words):
        """Whether the file that AFTER wrote has the outcome of each job."""
        self.audited += 1
        status, text, _ = called([self.after, "audit", "program.elf", "campaign.keep", *words])
        if status != 0 or not text.endswith(" wrong 0\n"):
            self.wrong += 1
            print(f"wrong: {name}, {' '.join(words)}: {text}", flush=True)


def called(words, seconds=300.0):
    """The status of a call and both texts."""
    done = subprocess.run(words, stdin=subprocess.DEVNULL, capture_output=True, text=True, timeout=seconds)
    return done.returncode, done.stdout, done.stderr


def main(before, after, seed="0", seconds="600"):
    builds = Builds(before, after, int(seed))
    programs = [*generate.programs(20240229 + int(seed)), *code_in_ram.programs(20250301 + int(seed))]
    end = time.monotonic() + float(seconds)
    done = of_all_kinds = 0
    with tempfile.TemporaryDirectory() as folder:
        os.chdir(folder)
        for number, one in enumerate(programs):
            if time.monotonic() > end:
                break
            pathlib.Path("program.elf").write_bytes(one.image)
            limit = str(one.limit * builds.dice.choice(LIMITS))
            had = 0
            for kind, flags in enumerate(KINDS):
                words = ["--rom", str(one.rom), "--ram", str(one.ram), "--limit", limit, *flags]
                had += builds.compare(one.name, words, WAYS[(number + kind) % len(WAYS)])
            of_all_kinds += had == len(KINDS)
            done += 1
        os.chdir("/")
    print(f"{done} programs, {of_all_kinds} of them with a campaign of each kind")
    print(f"{builds.campaigns} campaigns and {builds.refused} refusals, {builds.others} differ")
    print(f"{builds.killed} kills, {builds.begun_again} begun again; {builds.audited} audits, {builds.wrong} wrong")
    return 1 if builds.others or builds.wrong else 0


if __name__ == "__main__":
    if len(sys.argv) not in (3, 4, 5):
        sys.exit(__doc__)
    sys.exit(main(*sys.argv[1:]))
