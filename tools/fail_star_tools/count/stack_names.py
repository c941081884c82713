"""Names for bytes of the stack, and the function for which an instruction works: from the frames of the run without a
fault and the names of the image.

A byte in a frame is called `function:variable` if the debugging information has the variable, and otherwise
`function: stack+N`, where N is the offset of its word from the lowest sp that the frame has, as in N(sp) of the
disassembly.
"""

from __future__ import annotations

from fail_star_tools.read.call_frames import NONE, CallFrames, Slot
from fail_star_tools.read.campaign_file import Refusal
from fail_star_tools.read.cells import is_byte, offset_of
from fail_star_tools.read.elf_image import Image, Symbol
from fail_star_tools.read.stack_variables import StackVariables, variables_of
from fail_star_tools.read.traces import Trace


class StackNames:
    """The names of a run. `lacking` is the reason if the debugging information could not be read."""

    def __init__(self, image: Image, trace: Trace, ram_base: int) -> None:
        self.image, self.base, self.lacking = image, ram_base, ""
        self.frames = CallFrames(trace, image)
        try:
            self.variables = variables_of(image)
        except Refusal as refusal:
            self.variables, self.lacking = StackVariables([]), str(refusal)
        self.names: dict[Slot, str] = {}
        self.symbols: dict[int, bool] = {}  # from addresses to whether a symbol names the byte

    @staticmethod
    def of(image: Image | None, trace: Trace | None, ram_base: int) -> StackNames | None:
        """The names of a run, if there are a trace and the names of functions."""
        if image is None or not image.has_symbols or trace is None:
            return None
        return StackNames(image, trace, ram_base)

    def owner_at(self, cycle: int) -> int:
        """The address of the instruction for whose function the instruction of a cycle works."""
        return self.frames.owner_at(cycle)

    def slot_at(self, cycle: int, cell: int) -> str:
        """The name of a byte of the stack when the instruction of a cycle reads it. It is empty for other cells, and
        for bytes that a symbol names."""
        if not is_byte(cell):
            return ""
        address = self.base + offset_of(cell)
        slot = None if self.is_named(address) else self.frames.slot_at(cycle, address)
        if slot is None:
            return ""
        name = self.names.get(slot)
        if name is None:
            name = self.names[slot] = self.name_of(slot)
        return name

    def is_named(self, address: int) -> bool:
        """Whether a byte belongs to a variable or to code, but not to a variable that is the memory of the stack."""
        if address not in self.symbols:
            variable, code = self.image.variables.of(address), self.image.functions.of(address)
            self.symbols[address] = code is not None or (variable is not None and not self.is_stack(variable))
        return self.symbols[address]

    def is_stack(self, variable: Symbol) -> bool:
        """Whether a stack begins at the end of a variable, or within it."""
        return any(variable.value < top <= variable.value + variable.size for top in self.frames.tops)

    def name_of(self, slot: Slot) -> str:
        """The name of a byte of a frame."""
        function = self.image.function_at(slot.pc)
        if function is None:
            return ""
        name = self.variables.of(slot.pc, slot.from_base, slot.from_sp)
        if name is not None:
            return f"{function.name}:{name}"
        if slot.callee != NONE:
            callee = self.image.function_at(slot.callee)
            name = self.variables.of(slot.callee, slot.from_callee, slot.from_callee_sp)
            if callee is not None and name is not None:
                return f"{callee.name}:{name}"
        return f"{function.name}: stack+{slot.from_lowest & ~3}"
