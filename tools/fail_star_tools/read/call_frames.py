"""Follows the call frames of the run without a fault: in whose frame a byte is when an instruction reads it.

The trace says which instructions ran, and the calling convention of RISC-V says what they do to the stack: a call
leaves its return address in ra or t0, and a frame reaches from sp at the call (its base, which DWARF calls the CFA)
down to sp. What is in sp follows from the instructions of the trace, which are executed on registers and memory as
far as their values are known. If sp becomes unknown, no frame is known until sp gets a constant, or until the
function returns, because sp then has its value from before the call.

The compiler's routines that save and restore registers (`__riscv_save_*` and `__riscv_restore_*`, of -msave-restore)
work in the frame of the function that called them, and belong to it.
"""

from __future__ import annotations

import re
from array import array
from bisect import bisect_right
from functools import cached_property
from typing import NamedTuple, Optional

from fail_star_tools.read.campaign_file import Region
from fail_star_tools.read.elf_image import Image
from fail_star_tools.read.traces import Trace
from fail_star_tools.run.machine import OTHER as OTHERS
from fail_star_tools.run.machine import PLAIN, PRODUCTS, WIDTHS, WORD, Operation, signed

RA, SP, T0 = 1, 2, 5
LINKS = (RA, T0)
ROUTINE = re.compile("__riscv_(save|restore)_[a-z0-9]+")
SET, SUM, IMMEDIATE, BOTH, LOAD, STORE, CALL, JUMP, OTHER = range(9)
# Bounds of a run that may be hostile: words of memory that are followed, more than RAM has, and states, after which no
# frame is known.
MOST_WORDS, MOST_STATES = 1 << 20, 1 << 23
NONE = -1  # for a number that is not known, and for no frame


class Effect(NamedTuple):
    """What an instruction does to registers and memory, as far as it is followed. For a load or a store, `width` is
    that of the number, and negative if the number has a sign."""

    kind: int
    rd: int
    first: int
    second: int
    value: int
    width: int
    compute: Optional[Operation]
    in_routine: bool


class Slot(NamedTuple):
    """A byte of a frame: the current instruction of the function that has the frame, and the byte's offsets from the
    frame's base, from sp there, and from the lowest sp that the frame had. If the function called another one, the
    last three fields are the current instruction of that function, and the offsets from the base of its frame and
    from its sp."""

    pc: int
    from_base: int
    from_sp: int
    from_lowest: int
    callee: int
    from_callee: int
    from_callee_sp: int


def effect_of(pc: int, word: int, in_routine: bool) -> Effect:
    """What the instruction of a word at an address does. Branches and fences change nothing that is followed."""
    opcode, rd, funct3 = word & 0x7F, word >> 7 & 31, word >> 12 & 7
    kind, value, width, compute = OTHER, signed(word >> 20, 12), 0, None
    if opcode in (0x37, 0x17):
        kind, value = SET, (word & 0xFFFFF000) + (pc if opcode == 0x17 else 0) & WORD
    elif opcode in (0x6F, 0x67):
        kind, value = (CALL if rd in LINKS else JUMP), pc + 4
    elif opcode == 0x13 and funct3 == 0:
        kind = SUM
    elif opcode in (0x13, 0x33):
        kind, compute = (BOTH if opcode == 0x33 else IMMEDIATE), operation_of(word)
        value = value & WORD if funct3 not in (1, 5) else word >> 20 & 31
    elif opcode == 0x03 and funct3 in WIDTHS:
        kind, width = LOAD, WIDTHS[funct3] * (-1 if funct3 < 2 else 1)
    elif opcode == 0x23:
        kind, width, value, rd = STORE, WIDTHS.get(funct3, 0), signed(word >> 25 << 5 | rd, 12), 0
    elif opcode in (0x63, 0x0F):
        rd = 0
    if kind in (BOTH, IMMEDIATE) and compute is None:
        kind = OTHER
    return Effect(kind, rd, word >> 15 & 31, word >> 20 & 31, value, width, compute, in_routine)


def operation_of(word: int) -> Optional[Operation]:
    """The function by which an instruction computes from two numbers, or None for other instructions."""
    funct3, funct7 = word >> 12 & 7, word >> 25
    if word & 0x7F == 0x13 and funct3 not in (1, 5):
        return PLAIN[funct3]
    if funct7 == 0x20:
        return OTHERS.get(funct3)
    if funct7 == 1 and word & 0x7F == 0x33:
        return PRODUCTS[funct3]
    return PLAIN[funct3] if funct7 == 0 else None


class Chain:
    """The frames of a run by their numbers, each with its caller's. The base of a caller is never below that of its
    callee. So the frame of an address is found in few steps, by jumps over callers as in a skip list."""

    def __init__(self) -> None:
        self.base, self.caller, self.jump, self.depth = array("q"), array("q"), array("q"), array("q")
        self.call_pc, self.back, self.lowest = array("q"), array("q"), array("q")

    def add(self, base: int, caller: int, call_pc: int) -> int:
        """A further frame, and the instruction that called it, if one did."""
        number = len(self.base)
        jump = caller
        if caller != NONE:
            above = self.jump[caller]
            far = self.jump[above] if above != NONE else NONE
            if far != NONE and self.depth[caller] - self.depth[above] == self.depth[above] - self.depth[far]:
                jump = far
        depth, back = (0, NONE) if caller == NONE else (self.depth[caller] + 1, call_pc + 4)
        columns = (self.base, self.caller, self.jump, self.depth, self.call_pc, self.back, self.lowest)
        for column, value in zip(columns, (base, caller, jump, depth, call_pc, back, base)):
            column.append(value)
        return number

    def frame_of(self, frame: int, address: int) -> tuple[int, int]:
        """The frame or the first of its callers whose base is above an address, and the frame that it called; NONE
        where there is none."""
        callee = NONE
        while frame != NONE and self.base[frame] <= address:
            jump = self.jump[frame]
            callee, frame = frame, jump if jump != NONE and self.base[jump] <= address else self.caller[frame]
        return frame, callee


class CallFrames:
    """The frames of a run. A state has the frame that runs, sp, and, within a routine of the compiler, the
    instruction that went there; it begins at a cycle, and lasts until the next one."""

    def __init__(self, trace: Trace, image: Optional[Image]) -> None:
        self.trace, self.chain = trace, Chain()
        self.starts, self.frames, self.sps, self.owners = array("q"), array("q"), array("q"), array("q")
        Walk(self, trace, image).run()

    @cached_property
    def tops(self) -> set[int]:
        """Where stacks begin: the bases of frames that nothing called."""
        return {base for base, caller in zip(self.chain.base, self.chain.caller) if caller == NONE}

    def lowest_in(self, ram: Region) -> Optional[int]:
        """The lowest sp within RAM, or at its end; None if the run has no stack there, or sp is not always known."""
        found = [sp for sp in self.sps if ram.base < sp <= ram.base + ram.size]
        return min(found) if found and NONE not in self.sps else None

    def state_at(self, cycle: int) -> int:
        """The state in which the instruction of a cycle runs."""
        return bisect_right(self.starts, cycle) - 1

    def owner_at(self, cycle: int) -> int:
        """The address of the instruction of a cycle, or within a routine of the compiler of the instruction that went
        there."""
        owner = self.owners[self.state_at(cycle)]
        return self.trace.pcs[cycle] if owner == NONE else owner

    def slot_at(self, cycle: int, address: int) -> Optional[Slot]:
        """The place of a byte on the stack when the instruction of a cycle runs, or None if it is in no frame."""
        state, chain = self.state_at(cycle), self.chain
        sp = self.sps[state]
        if sp == NONE or address < sp:
            return None
        frame, callee = chain.frame_of(self.frames[state], address)
        if frame == NONE:
            return None
        pc, below = self.place_in(cycle, callee)
        own = (pc, address - chain.base[frame], address - below, address - chain.lowest[frame])
        if callee == NONE:
            return Slot(*own, NONE, 0, 0)
        # The frame below that of the callee, if the callee called a function.
        inner, lower = self.place_in(cycle, chain.frame_of(self.frames[state], chain.base[callee] - 1)[1])
        return Slot(*own, inner, address - below, address - lower)

    def place_in(self, cycle: int, callee: int) -> tuple[int, int]:
        """The current instruction of the function of a frame, and its sp: at its call of another function, or at the
        current point of the run."""
        if callee == NONE:
            return self.owner_at(cycle), self.sps[self.state_at(cycle)]
        return self.chain.call_pc[callee], self.chain.base[callee]


class Walk:
    """One pass over a trace."""

    def __init__(self, found: CallFrames, trace: Trace, image: Optional[Image]) -> None:
        self.found, self.chain, self.trace = found, found.chain, trace
        self.effects = {pc: effect_of(pc, word, is_routine(image, pc)) for pc, word in trace.words.items()}
        self.registers: list[Optional[int]] = [0] * 32
        self.image, self.memory = image, dict[int, Optional[int]]()
        self.unsure: set[int] = set()  # frames whose calls had an unknown sp
        self.frame, self.owner = self.chain.add(0, NONE, NONE), NONE
        self.switched = NONE  # the last cycle in which sp got a value of another stack

    def run(self) -> None:
        """Follows all instructions; a state is kept where one begins."""
        pcs, effects = self.trace.pcs, self.effects
        self.keep(0)
        last = len(pcs) - 1
        for cycle, pc in enumerate(pcs):
            effect = effects[pc]
            if cycle < last:
                after = pcs[cycle + 1]
                enters = effects[after].in_routine
                if self.take(cycle, pc, effect, after) or enters != effect.in_routine:
                    self.owner = (pc if self.owner == NONE else self.owner) if enters else NONE
                    if len(self.found.starts) == MOST_STATES:
                        self.registers[SP], self.owner = None, NONE
                        return self.keep(cycle + 1)
                    self.keep(cycle + 1)

    def keep(self, cycle: int) -> None:
        """Keeps the state that begins at a cycle."""
        found, sp = self.found, self.registers[SP]
        columns = (found.starts, found.frames, found.sps, found.owners)
        for column, value in zip(columns, (cycle, self.frame, NONE if sp is None else sp, self.owner)):
            column.append(value)

    def take(self, cycle: int, pc: int, effect: Effect, after: int) -> bool:
        """Follows one instruction. Returns whether sp or the frame has changed."""
        kind, rd, registers = effect.kind, effect.rd, self.registers
        if kind == STORE:
            self.store(effect)
            return False
        frame = self.frame
        if rd:
            registers[rd] = self.result(effect)
        if kind == CALL and not self.effects[after].in_routine:
            self.call(pc)
        elif kind == JUMP and after == self.chain.back[self.frame]:
            self.leave()
        if rd == SP:
            self.moved(cycle, effect)
        return rd == SP or self.frame != frame

    def result(self, effect: Effect) -> Optional[int]:
        """The value that a register gets, if it is known."""
        kind, registers = effect.kind, self.registers
        if kind in (SET, CALL, JUMP):
            return effect.value
        first = registers[effect.first]
        if kind == OTHER or first is None:
            return None
        if kind == SUM:
            return first + effect.value & WORD
        if kind == LOAD:
            return self.load(first + effect.value & WORD, effect.width)
        second = effect.value if kind == IMMEDIATE else registers[effect.second]
        return None if second is None or effect.compute is None else effect.compute(first, second) & WORD

    def load(self, address: int, width: int) -> Optional[int]:
        """The number at an address, if it is known."""
        word = self.word_at(address & ~3)
        if word is None or width == 4:
            return word
        size = 8 * abs(width)
        value = word >> 8 * (address & 3) & (1 << size) - 1
        return signed(value, size) & WORD if width < 0 else value

    def word_at(self, address: int) -> Optional[int]:
        """The word at an address. If nothing was stored there, it is that of the image, or 0."""
        if address in self.memory or self.image is None:
            return self.memory.get(address)
        return self.image.word_at(address) or 0

    def store(self, effect: Effect) -> None:
        """Follows a store. A store to an unknown address is assumed not to change a saved register."""
        base = self.registers[effect.first]
        if base is None:
            return
        address, value, memory = base + effect.value & WORD, self.registers[effect.second], self.memory
        at, width = address & ~3, effect.width
        if value is not None and width != 4:
            before = self.word_at(at)
            mask = (1 << 8 * width) - 1 << 8 * (address & 3)
            value = None if before is None else before & ~mask | value << 8 * (address & 3) & mask
        if at in memory or len(memory) < MOST_WORDS:
            memory[at] = value

    def call(self, pc: int) -> None:
        """A function is called: its frame begins at sp."""
        sp, above = self.registers[SP], self.chain.base[self.frame]
        self.frame = self.chain.add(above if sp is None else min(sp, above), self.frame, pc)
        if sp is None:
            self.unsure.add(self.frame)

    def leave(self) -> None:
        """A function returns. Its caller finds sp as it was."""
        if self.registers[SP] is None and self.frame not in self.unsure:
            self.registers[SP] = self.chain.base[self.frame]
        self.frame = max(self.chain.caller[self.frame], 0)

    def moved(self, cycle: int, effect: Effect) -> None:
        """sp got a value. A constant and a loaded value belong to another stack, and so does a value that is made of
        a constant in two steps."""
        sp, chain = self.registers[SP], self.chain
        if sp is None:
            return
        second = cycle > 0 and self.switched == cycle - 1
        if second:
            self.found.sps[-1] = 0  # the result of the first of two steps is not an address of a stack
        if second or effect.kind in (SET, LOAD):
            self.switched = cycle
            self.frame = chain.add(sp, NONE, NONE)
        while chain.base[self.frame] < sp and chain.caller[self.frame] != NONE:
            self.frame = chain.caller[self.frame]  # frames that were left without a return
        if chain.base[self.frame] < sp:
            chain.base[self.frame] = sp
            chain.lowest[self.frame] = sp
        chain.lowest[self.frame] = min(chain.lowest[self.frame], sp)


def is_routine(image: Optional[Image], pc: int) -> bool:
    """Whether an address is in a routine of the compiler that saves or restores registers."""
    owner = image.function_at(pc) if image is not None else None
    return owner is not None and ROUTINE.fullmatch(owner.name) is not None
