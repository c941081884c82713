"""Compares registers and memory that fail_debug shows, and where watchpoints stop it, with the second reading of the
machine (machine.py), at random places of random sites of the examples, which it reaches forwards and backwards.

debug_places.py DEBUG [SEED]

A *place* is a number of instructions that a run has taken. The injected run stands at the site's cycle first, with the
bit flipped; before that place it is the run without a fault. The last place is the one before the instruction that
ends the run, or the limit.
"""

from __future__ import annotations

import bisect
import os
import random
import sys
import tempfile
from dataclasses import dataclass

from debug_client import REGISTERS, Client, ProtocolError, Stop
from machine import MASK, Case, End, Machine, Site, decode
from replay import BUILT, LONG, TOO_LONG, Replayed, halting, options_of

SEED, SITES, PLACES = 20261129, 50, 10  # the places are those of each site
MOST_STEPS = 12  # of a way by single steps
WATCHED = 3  # the watchpoints of each site
# GDB's numbers of signals.
TRAP, ILL, ABRT, BUS, SEGV, XCPU = 5, 4, 6, 10, 11, 24
SIGNALS = {"illegal": ILL, "address": SEGV, "misaligned": BUS}
# The kinds of watchpoints, by their number in a packet: the name in a stop reply, and whether loads and stores count.
KINDS = {2: ("watch", False, True), 3: ("rwatch", True, False), 4: ("awatch", True, True)}


@dataclass(frozen=True)
class State:
    """What a debugger sees of a place: x0 to x31 and pc, the bytes of RAM, and the number of bytes sent so far."""

    registers: tuple[int, ...]
    ram: bytes
    sent: int


@dataclass(frozen=True)
class Access:
    """The bytes that an instruction loads or stores."""

    stores: bool
    addresses: range

    def is_watched(self, watch: Watch) -> bool:
        """Whether it touches a byte of the watchpoint in the way that is watched."""
        _, loads, stores = KINDS[watch.kind]
        common = range(max(watch.address, self.addresses.start), min(watch.address + watch.length, self.addresses.stop))
        return (stores if self.stores else loads) and len(common) > 0


@dataclass(frozen=True)
class Watch:
    """A watchpoint."""

    kind: int
    address: int
    length: int


def access_of(machine: Machine) -> Access | None:
    """What the next instruction loads or stores."""
    word = machine.word()
    instruction = None if word is None else decode(word)
    if instruction is None or instruction[0] not in ("load", "store"):
        return None
    kind, detail, _, rs1, _, immediate = instruction
    address, size = (machine.x[rs1] + immediate) & MASK, detail[0] if kind == "load" else detail
    return Access(kind == "store", range(address, address + size))


class Walk:
    """The run of a case, with the flip of a site or without one, place by place."""

    def __init__(self, case: Case, site: Site | None) -> None:
        self.case, self.states = case, list[State]()
        self.accesses = list[Access | None]()  # of the instruction after each place
        self.flip_at = site[0] if site else 0  # the place that a way back does not pass at once
        self.end: End | None = None
        machine = Machine(case)
        while self.end is None and machine.taken < case.limit:
            if site and machine.taken == site[0]:
                machine.flip(*site[1:])
            self.note(machine)
            self.end = machine.step()
        if self.end is None:
            self.note(machine)
        self.last = len(self.states) - 1
        self.output = bytes(machine.output)
        self.by_pc: dict[int, list[int]] = {}
        for place, state in enumerate(self.states):
            self.by_pc.setdefault(state.registers[-1], []).append(place)

    def note(self, machine: Machine) -> None:
        """Keeps the state of the next place."""
        self.states.append(State((*machine.x, machine.pc), bytes(machine.memory), len(machine.output)))
        self.accesses.append(access_of(machine))

    def memory(self, place: int, address: int, length: int) -> bytes:
        """The bytes from an address on, as far as there is memory without a gap."""
        found = bytearray()
        for at in range(address, address + length):
            if at in self.case.ram:
                found.append(self.states[place].ram[at - self.case.ram.start])
            elif at in self.case.rom:
                found.append(self.case.rom_bytes[at - self.case.rom.start])
            else:
                break
        return bytes(found)

    def next_at(self, pc: int, place: int) -> int | None:
        """The first place after this one at which the pc has this value."""
        places = self.by_pc.get(pc, [])
        at = bisect.bisect_right(places, place)
        return places[at] if at < len(places) else None

    def floor(self, place: int) -> int:
        """Where a way back from a place ends that finds no breakpoint: at the flip, or at the first place."""
        return self.flip_at if self.flip_at < place else 0

    def previous_at(self, pc: int, place: int) -> int | None:
        """The last place before this one, and not before the floor, at which the pc has this value."""
        places = self.by_pc.get(pc, [])
        at = bisect.bisect_left(places, place)
        return places[at - 1] if at and places[at - 1] >= self.floor(place) else None

    def touches(self, watch: Watch, place: int) -> bool:
        """Whether the instruction after a place touches the watchpoint."""
        access = self.accesses[place]
        return access is not None and access.is_watched(watch)

    def next_touch(self, watch: Watch, place: int) -> int | None:
        """The first place from this one on whose instruction touches the watchpoint. It may be the one that ends the run."""
        end = self.last + (self.end is not None)
        return next((at for at in range(place, end) if self.touches(watch, at)), None)

    def previous_touch(self, watch: Watch, place: int) -> int | None:
        """The last place up to this one to which an instruction leads, from the floor on, that touches the watchpoint."""
        return next((at + 1 for at in range(place - 1, self.floor(place) - 1, -1) if self.touches(watch, at)), None)


def mark_of(name: str, value: str) -> str:
    """A pair of a stop reply. The address of a watchpoint may have zeros in front."""
    return f"{name}:{int(value, 16):x}" if name.endswith("watch") else f"{name}:{value}"


def end_stop(end: End | None) -> tuple[str, int]:
    """How a run's end is told: W with the low byte of the value, or T with a signal; the limit is that of processor time."""
    if end is None:
        return "T", XCPU
    if end[0] == "halted":
        return "W", end[1] & 0xFF
    return "T", ABRT if end[0] == "detected" else SIGNALS[end[1]]


def arrival(end: End | None) -> tuple[str, int]:
    """How it is told that a run came to its last place: one that halts stops there as a recording that ends."""
    return end_stop(end) if end_stop(end)[0] == "T" else ("T", TRAP)


class Session:
    """A session beside the walks: where it should be, and how often it was elsewhere."""

    def __init__(self, client: Client, injected: Walk, golden: Walk, cycle: int, dice: random.Random) -> None:
        self.client, self.walk, self.place, self.dice = client, injected, cycle, dice
        self.walks = {"injected": injected, "golden": golden}
        self.wrong: list[str] = []
        self.watched_ends = 0

    def same(self, what: str, wanted: object, got: object) -> None:
        if wanted != got:
            self.wrong.append(f"place {self.place}: {what}: wanted {str(wanted)[:200]}, got {str(got)[:200]}")

    def ran_to(self, place: int, stop: Stop, wanted: tuple[str, int] = ("T", TRAP), marks: tuple[str, ...] = ()) -> None:
        """Compares a stop with that of a way to a place, and is there then."""
        before, self.place = self.place, place
        self.same("the stop", wanted, (stop.kind, stop.number))
        self.same("what the stop says", marks, tuple(mark_of(*pair) for pair in stop.pairs))
        output = self.walk.output[self.walk.states[before].sent : self.walk.states[place].sent] if before < place else b""
        self.same("the bytes sent", output.hex(), stop.output.hex())

    def look(self) -> None:
        """Compares all registers, one of them by itself, and memory in and around RAM and ROM."""
        state, client = self.walk.states[self.place], self.client
        self.same("g", state.registers, tuple(client.registers()))
        number = self.dice.randrange(REGISTERS)
        self.same(f"p {number}", state.registers[number], client.register(number))
        for region in (self.walk.case.ram, self.walk.case.rom):
            address = self.dice.randrange(region.start - 8, region.stop + 8)
            length = self.dice.choice((1, 2, 4, self.dice.randint(1, 64)))
            wanted, got = self.walk.memory(self.place, address, length), client.memory(address, length)
            # What cannot be read is an error; of what can be read in part the program answers that part.
            self.same(f"m {address:x},{length}", wanted or None, got)

    def goes_to(self, place: int) -> None:
        """Goes to a place by the program's own command."""
        self.client.monitor(f"goto {place}")
        self.place = place

    def shows(self, name: str) -> None:
        """Shows the other run, after as many instructions or at its last place."""
        self.client.monitor(name)
        self.walk = self.walks[name]
        self.place = min(self.place, self.walk.last)

    def steps(self, count: int) -> None:
        """Takes so many steps, or back if it is negative, and looks at some of the places."""
        for _ in range(abs(count)):
            if count > 0 and self.place < self.walk.last:
                self.ran_to(self.place + 1, self.client.resume(self.dice.choice((b"s", b"vCont;s"))))
            elif count < 0 < self.place:
                self.ran_to(self.place - 1, self.client.step_back())
            if self.dice.random() < 0.2:
                self.look()

    def runs_on(self, pc: int) -> None:
        """Runs on to a breakpoint, or to the end. As GDB does, it first steps away from a breakpoint at its place."""
        self.client.insert_breakpoint(pc)
        if self.walk.states[self.place].registers[-1] == pc and self.place < self.walk.last:
            self.ran_to(self.place + 1, self.client.step())
        if self.place < self.walk.last and self.walk.states[self.place].registers[-1] != pc:
            stop, place = self.client.resume(self.dice.choice((b"c", b"vCont;c"))), self.walk.next_at(pc, self.place)
            if place is None:
                self.came_to_end(stop)
            else:
                self.ran_to(place, stop, marks=("swbreak:",))
        self.client.remove_breakpoint(pc)

    def came_to_end(self, stop: Stop) -> None:
        """Compares a stop with that of a way to the last place."""
        wanted = arrival(self.walk.end)
        self.ran_to(self.walk.last, stop, wanted, ("replaylog:end",) if wanted[1] == TRAP else ())

    def runs_back(self, pc: int) -> None:
        """Runs back to a breakpoint, to the flip, or to the first place."""
        self.client.insert_breakpoint(pc)
        if self.walk.states[self.place].registers[-1] == pc and self.place > 0:
            self.ran_to(self.place - 1, self.client.step_back())
        if self.place > 0 and self.walk.states[self.place].registers[-1] != pc:
            stop, place = self.client.go_back(), self.walk.previous_at(pc, self.place)
            if place is None:
                self.came_to_floor(stop)
            else:
                self.ran_to(place, stop, marks=("swbreak:",))
        self.client.remove_breakpoint(pc)

    def touch_mark(self, watch: Watch) -> tuple[str, ...]:
        """What a stop reply says of a watchpoint."""
        return (f"{KINDS[watch.kind][0]}:{watch.address:x}",)

    def watch(self) -> Watch:
        """A watchpoint, mostly of bytes that an instruction of the run touches."""
        accesses = [it for it in self.walk.accesses if it]
        near = self.dice.choice(accesses).addresses.start if accesses and self.dice.random() < 0.9 else self.walk.case.ram.start
        address = max(0, near + self.dice.randint(-2, 2))
        return Watch(self.dice.choice(list(KINDS)), address, min(self.dice.choice((1, 2, 4, 9)), (1 << 32) - address))

    def watches(self, place: int) -> None:
        """Goes to a place, and from there to a touch of a watchpoint by each of the four ways."""
        watch = self.watch()
        self.goes_to(min(place, self.walk.last))
        self.client.insert_watchpoint(watch.kind, watch.address, watch.length)
        self.client.insert_watchpoint(watch.kind, watch.address, watch.length)
        for forwards in self.dice.sample((True, True, False, False), 4):
            if forwards and self.place < self.walk.last:
                self.watches_on(watch)
            elif not forwards and self.place > 0:
                self.watches_back(watch)
            self.look()
        # One removal removes it, although it was inserted twice.
        self.client.remove_watchpoint(watch.kind, watch.address, watch.length)
        if self.place < self.walk.last:
            self.came_to_end(self.client.go_on())

    def watches_on(self, watch: Watch) -> None:
        """Runs on to a watchpoint or to the end, or takes one step."""
        step, touched = self.dice.random() < 0.3, self.walk.touches(watch, self.place)
        if step and not touched:
            self.ran_to(self.place + 1, self.client.step())
        elif (place := self.walk.next_touch(watch, self.place)) is None:
            self.came_to_end(self.client.go_on())
        else:
            # A run that would halt tells its end together with the watchpoint.
            ends = place == self.walk.last and end_stop(self.walk.end)[0] == "W"
            marks = (*self.touch_mark(watch), *(("replaylog:end",) if ends else ()))
            self.ran_to(place, self.client.step() if step else self.client.go_on(), marks=marks)
            self.passes(watch, forwards=True)

    def watches_back(self, watch: Watch) -> None:
        """Runs back to a watchpoint, to the flip or to the first place, or takes one step back."""
        step, touched = self.dice.random() < 0.3, self.walk.touches(watch, self.place - 1)
        if step and not touched:
            self.ran_to(self.place - 1, self.client.step_back())
        elif step:
            self.ran_to(self.place, self.client.step_back(), marks=self.touch_mark(watch))
            self.passes(watch, forwards=False)
        elif (place := self.walk.previous_touch(watch, self.place)) is None:
            self.came_to_floor(self.client.go_back())
        else:
            self.ran_to(place, self.client.go_back(), marks=self.touch_mark(watch))
            self.passes(watch, forwards=False)

    def watches_end(self, place: int) -> None:
        """Goes to a watchpoint of the bytes that the last instruction loads or stores, if there is one, and over it."""
        access = self.walk.accesses[self.walk.last] if self.walk.end else None
        if access is None or access.addresses.stop > 1 << 32:
            return
        kind = self.dice.choice((2 if access.stores else 3, 4))
        watch = Watch(kind, access.addresses.start, len(access.addresses))
        self.goes_to(place)
        self.client.insert_watchpoint(watch.kind, watch.address, watch.length)
        while self.place < self.walk.last:
            self.watches_on(watch)
        self.ran_to(self.walk.last, self.client.go_on(), marks=self.touch_mark(watch))
        self.ran_to(self.walk.last, self.client.step(), marks=self.touch_mark(watch))
        self.client.remove_watchpoint(watch.kind, watch.address, watch.length)
        self.ran_to(self.walk.last, self.client.step(), end_stop(self.walk.end))
        self.watched_ends += 1

    def passes(self, watch: Watch, forwards: bool) -> None:
        """Steps over an instruction that touches the watchpoint, as GDB does for RISC-V: without the watchpoint."""
        self.client.remove_watchpoint(watch.kind, watch.address, watch.length)
        if forwards and self.place == self.walk.last:
            self.ran_to(self.place, self.client.step(), end_stop(self.walk.end))
        elif forwards:
            self.ran_to(self.place + 1, self.client.step())
        else:
            self.ran_to(self.place - 1, self.client.step_back())
        self.client.insert_watchpoint(watch.kind, watch.address, watch.length)

    def came_to_floor(self, stop: Stop) -> None:
        """Compares a stop with that of a way back that finds no breakpoint."""
        floor = self.walk.floor(self.place)
        self.ran_to(floor, stop, marks=() if floor else ("replaylog:begin",))

    def visit(self, place: int) -> None:
        """Goes to a place in one of five ways, or where the way leads, and looks there."""
        way, pc = self.dice.randrange(5), self.walk.states[min(place, self.walk.last)].registers[-1]
        if way == 0:
            self.goes_to(min(place, self.walk.last))
        elif way == 1:
            count = self.dice.randint(1, MOST_STEPS)
            start = max(0, min(self.walk.last, place + self.dice.choice((-count, count))))
            self.goes_to(start)
            self.steps(place - start)
        elif way == 2:
            self.shows(self.dice.choice(("golden", "injected")))
        elif self.place < place:
            self.runs_on(pc)
        else:
            self.runs_back(pc)
        self.look()

    def whole(self) -> None:
        """Runs the injected run to the end, one step back, to the flip and to the first place; looks at each."""
        self.shows("injected")
        if self.place < self.walk.last:
            self.came_to_end(self.client.go_on())
        self.look()
        self.ran_to(self.walk.last, self.client.go_on(), end_stop(self.walk.end))
        self.steps(-1)
        self.look()
        while self.place > 0:
            self.came_to_floor(self.client.go_back())
            self.look()


def programs() -> list[Replayed]:
    """The examples but for the long ones, those with the pc as a cell too."""
    found = []
    for number, path in enumerate(sorted(BUILT.glob("*.elf"))):
        if path.stem not in (LONG, *TOO_LONG):
            flags = ["--pc"] if number % 2 else []
            one = halting(path.stem, str(path), options_of(path.stem, flags))
            assert one, path
            found.append(one)
    return found


def wrong_of(debug: str, one: Replayed, site: Site, dice: random.Random) -> tuple[list[str], int]:
    """What a session of a site shows that is not so: at the flip, at random places, and at both ends; and the number of
    ends at a watchpoint."""
    words, ends = [debug, one.image, *map(str, site), *one.options], 0
    injected, golden = Walk(one.case, site), Walk(one.case, None)
    try:
        with Client(words) as client:
            client.supported("swbreak+", "vContSupported+")
            if dice.random() < 0.5:
                client.start_no_ack_mode()
            session = Session(client, injected, golden, site[0], dice)
            session.look()
            for _ in range(PLACES):
                session.visit(dice.randrange(injected.last + 1))
            for _ in range(WATCHED):
                session.watches(dice.randrange(injected.last + 1))
            session.watches_end(dice.randrange(injected.last + 1))
            session.whole()
            session.same("whether a signal ended the program", False, client.close() < 0)
            wrong, ends = session.wrong, session.watched_ends
    except (ProtocolError, BrokenPipeError) as error:
        wrong = [f"{type(error).__name__}: {error}"]
    return [f"{' '.join(words[1:])}: {line}" for line in wrong], ends


def main() -> int:
    debug = os.path.abspath(sys.argv[1])
    dice = random.Random(int(sys.argv[2]) if len(sys.argv) > 2 else SEED)
    bad = ends = 0
    with tempfile.TemporaryDirectory() as folder:
        os.chdir(folder)
        examples = programs()
        for _ in range(SITES):
            one = dice.choice(examples)
            wrong, watched_ends = wrong_of(debug, one, one.site(dice), dice)
            bad += bool(wrong)
            ends += watched_ends
            print("".join(f"differs: {line}\n" for line in wrong[:3]), end="", flush=True)
        os.chdir("/")
    watched = f"{SITES * WATCHED} watchpoints and {ends} at the end of a run"
    print(f"{SITES} sites, {SITES * PLACES} places, {watched}, {bad} sites that differ")
    return 1 if bad else 0


if __name__ == "__main__":
    sys.exit(main())
