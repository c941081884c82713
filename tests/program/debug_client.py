"""A client for GDB's remote serial protocol, over the standard input and output of a program.

It was written from the appendix "GDB Remote Serial Protocol" of the GDB manual, without reading fail_debug, so that
debug_places.py and debug_streams.py compare the program with a second reading of the protocol. Sections are named as
in the manual.
"""

from __future__ import annotations

import os
import re
import selectors
import subprocess
import time
from collections.abc import Iterator, Sequence
from dataclasses import dataclass, field

INTERRUPT = b"\x03"
ESCAPE, RUN_LENGTH, FIRST_COUNT = 0x7D, 0x2A, 29  # a repeat count n is sent as the character n + 29
SPECIAL = b"#$}*"  # the bytes that data has only after the escape byte, XORed with 0x20
REGISTERS = 33  # x0 to x31 and pc, as the target description orders them
ATTEMPTS = 3  # how often a packet is sent that is answered by `-`


class ProtocolError(Exception):
    """The program sent what the manual does not allow, or nothing in time."""


# --- Packets (Overview) ---------------------------------------------------------------------------


def escaped(data: bytes) -> bytes:
    """Binary data as a packet has it."""
    return b"".join(bytes((ESCAPE, byte ^ 0x20)) if byte in SPECIAL else bytes((byte,)) for byte in data)


def framed(data: bytes) -> bytes:
    """A packet with this data: `$`, the escaped data, `#` and the checksum."""
    body = escaped(data)
    return b"$%s#%02x" % (body, sum(body) & 0xFF)


def expanded(body: bytes) -> bytes:
    """The data of a packet, without escapes and run-length encoding."""
    data, at = bytearray(), 0
    while at < len(body):
        if body[at] == ESCAPE:
            at += 1
            if at == len(body):
                raise ProtocolError("an escape byte ends the packet")
            data.append(body[at] ^ 0x20)
        elif body[at] == RUN_LENGTH:
            at += 1
            if not data or at == len(body) or not 32 <= body[at] <= 126 or body[at] in b"#$":
                raise ProtocolError(f"a wrong repeat count in {body[:60]!r}")
            data += data[-1:] * (body[at] - FIRST_COUNT)
        else:
            data.append(body[at])
        at += 1
    return bytes(data)


@dataclass
class Parser:
    """Divides what a program sends into acknowledgements and packets."""

    rest: bytearray = field(default_factory=bytearray)

    def feed(self, some: bytes) -> Iterator[bytes]:
        """The complete items in order: `+`, `-`, or a packet with `$` in front of its expanded data."""
        self.rest += some
        while self.rest:
            first = bytes(self.rest[:1])
            if first in (b"+", b"-"):
                del self.rest[:1]
                yield first
                continue
            if first != b"$":
                raise ProtocolError(f"{bytes(self.rest[:60])!r} is no packet and no acknowledgement")
            end = self.rest.find(b"#")
            if end < 0 or len(self.rest) < end + 3:
                return
            body, sent = bytes(self.rest[1:end]), bytes(self.rest[end + 1 : end + 3])
            if b"$" in body:
                raise ProtocolError(f"a `$` within the packet {body[:60]!r}")
            if not re.fullmatch(b"[0-9a-fA-F]{2}", sent) or int(sent, 16) != sum(body) & 0xFF:
                raise ProtocolError(f"the checksum {sent!r} of {body[:60]!r}, and not {sum(body) & 0xFF:02x}")
            del self.rest[: end + 3]
            yield b"$" + expanded(body)


# --- Stop replies (Stop Reply Packets) ------------------------------------------------------------


@dataclass(frozen=True)
class Stop:
    """Why the program stopped, and what it sent before."""

    kind: str  # S or T: a signal; W: it exited; X: a signal ended it
    number: int  # the signal or the exit status
    pairs: tuple[tuple[str, str], ...]  # of T: pairs such as replaylog and begin
    output: bytes  # the bytes of O packets

    def at_begin(self) -> bool:
        """Whether the recorded run has nothing before this place."""
        return ("replaylog", "begin") in self.pairs


def stop_of(reply: bytes, output: bytes) -> Stop:
    """What a stop reply says."""
    text = reply.decode("latin-1")
    found = re.fullmatch("(S|T|W|X)([0-9a-f]{2})(.*)", text, re.DOTALL)
    if not found or (found[1] == "S" and found[3]):
        raise ProtocolError(f"{text[:60]!r} is no stop reply")
    if found[1] != "T":
        return Stop(found[1], int(found[2], 16), (), output)
    pairs = re.findall("([^:;]+):([^;]*);?", found[3])
    if found[3] and re.fullmatch("(?:[^:;]+:[^;]*;)*[^:;]+:[^;]*;?", found[3]) is None:
        raise ProtocolError(f"the pairs of the stop reply {text[:60]!r}")
    return Stop("T", int(found[2], 16), tuple(pairs), output)


# --- The client -----------------------------------------------------------------------------------


class Client:
    """A session with a program. Each call raises ProtocolError for an answer that the manual does not allow."""

    def __init__(self, command: Sequence[str], seconds: float = 30.0) -> None:
        self.process = subprocess.Popen(command, stdin=subprocess.PIPE, stdout=subprocess.PIPE, stderr=subprocess.PIPE)
        assert self.process.stdin and self.process.stdout
        self.to, self.out = self.process.stdin.fileno(), self.process.stdout.fileno()
        self.seconds, self.acknowledged = seconds, True
        self.parser, self.items = Parser(), iter(())  # type: Parser, Iterator[bytes]
        self.ready = selectors.DefaultSelector()
        self.ready.register(self.out, selectors.EVENT_READ)

    def __enter__(self) -> Client:
        return self

    def __exit__(self, *_: object) -> None:
        self.close()

    def close(self) -> int:
        """Closes the input, waits for the end of the program, and returns its status: of a signal a negative one."""
        if self.process.returncode is None:
            self.ready.close()
            try:
                self.process.communicate(timeout=self.seconds)
            except subprocess.TimeoutExpired:
                self.process.kill()
                self.process.communicate()
                raise ProtocolError("the program did not end after its input") from None
        return self.process.wait()

    def item(self) -> bytes:
        """The next acknowledgement or packet."""
        deadline = time.monotonic() + self.seconds
        while True:
            for item in self.items:
                return item
            if not self.ready.select(max(0.0, deadline - time.monotonic())):
                raise ProtocolError(f"no answer within {self.seconds} seconds")
            some = os.read(self.out, 1 << 16)
            if not some:
                raise ProtocolError("the program closed its output")
            self.items = self.parser.feed(some)

    def send(self, data: bytes) -> None:
        """Sends a packet, again if the program asks for it, until it is acknowledged."""
        for _ in range(ATTEMPTS):
            os.write(self.to, framed(data))
            if not self.acknowledged:
                return
            item = self.item()
            if item == b"+":
                return
            if item != b"-":
                raise ProtocolError(f"{item[:60]!r} in place of an acknowledgement of {data[:60]!r}")
        raise ProtocolError(f"the packet {data[:60]!r} was refused {ATTEMPTS} times")

    def packet(self) -> bytes:
        """The data of the next packet, which is acknowledged."""
        item = self.item()
        if not item.startswith(b"$"):
            raise ProtocolError(f"{item!r} in place of a packet")
        if self.acknowledged:
            os.write(self.to, b"+")
        return item[1:]

    def answer(self) -> tuple[bytes, bytes]:
        """The reply to the last packet, and the bytes of the O packets before it."""
        output = b""
        while True:
            reply = self.packet()
            found = re.fullmatch(b"O((?:[0-9a-f]{2})+)", reply)
            if not found:
                return reply, output
            output += bytes.fromhex(found[1].decode())

    def ask(self, data: bytes) -> bytes:
        """The reply to a packet that runs nothing."""
        self.send(data)
        return self.packet()

    def expects_ok(self, data: bytes) -> None:
        """Sends a packet whose reply must be OK."""
        if (reply := self.ask(data)) != b"OK":
            raise ProtocolError(f"{reply[:60]!r} in place of OK to {data[:60]!r}")

    # General Query Packets

    def supported(self, *features: str) -> dict[str, str]:
        """The features of the program: each with `+`, `-`, `?` or its value."""
        reply = self.ask(b"qSupported" + (b":" + ";".join(features).encode() if features else b"")).decode()
        found = {}
        for feature in filter(None, reply.split(";")):
            name, equals, value = feature.partition("=")
            found[name if equals else feature[:-1]] = value if equals else feature[-1:]
        return found

    def start_no_ack_mode(self) -> None:
        """From here on nothing is acknowledged."""
        self.expects_ok(b"QStartNoAckMode")
        self.acknowledged = False

    def monitor(self, command: str) -> str:
        """The text that a command of `monitor` prints."""
        self.send(b"qRcmd," + command.encode().hex().encode())
        reply, output = self.answer()
        if reply == b"OK":
            return output.decode("latin-1")
        if not re.fullmatch(b"(?:[0-9a-f]{2})+", reply):
            raise ProtocolError(f"{reply[:60]!r} is no reply to the command {command}")
        return (output + bytes.fromhex(reply.decode())).decode("latin-1")

    # Packets

    def why(self) -> Stop:
        """Why the program is stopped."""
        return stop_of(self.ask(b"?"), b"")

    def registers(self) -> list[int]:
        """All registers, x0 to x31 and pc."""
        reply = self.ask(b"g")
        if not re.fullmatch(b"[0-9a-f]{%d}" % (8 * REGISTERS), reply):
            raise ProtocolError(f"{reply[:60]!r}, of {len(reply)} characters, has not {REGISTERS} registers of 32 bits")
        values = bytes.fromhex(reply.decode())
        return [int.from_bytes(values[at : at + 4], "little") for at in range(0, len(values), 4)]

    def register(self, number: int) -> int:
        """One register."""
        reply = self.ask(b"p%x" % number)
        if not re.fullmatch(b"[0-9a-f]{8}", reply):
            raise ProtocolError(f"{reply[:60]!r} is no register of 32 bits")
        return int.from_bytes(bytes.fromhex(reply.decode()), "little")

    def memory(self, address: int, length: int) -> bytes | None:
        """The bytes from an address on: fewer if the rest cannot be read, and None for an error."""
        reply = self.ask(b"m%x,%x" % (address, length))
        if re.fullmatch(b"E[0-9a-f]{2}|E\\..*", reply):
            return None
        if not re.fullmatch(b"(?:[0-9a-f]{2})*", reply) or len(reply) > 2 * length:
            raise ProtocolError(f"{reply[:60]!r} is no answer to {length} bytes of memory")
        return bytes.fromhex(reply.decode())

    def resume(self, data: bytes) -> Stop:
        """Sends a packet that runs the program, and waits until it stops."""
        self.send(data)
        return stop_of(*self.answer())

    def step(self) -> Stop:
        return self.resume(b"s")

    def go_on(self) -> Stop:
        return self.resume(b"c")

    def step_back(self) -> Stop:
        return self.resume(b"bs")

    def go_back(self) -> Stop:
        return self.resume(b"bc")

    def insert_breakpoint(self, address: int) -> None:
        self.expects_ok(b"Z0,%x,4" % address)

    def remove_breakpoint(self, address: int) -> None:
        self.expects_ok(b"z0,%x,4" % address)

    def insert_watchpoint(self, kind: int, address: int, length: int) -> None:
        """A watchpoint for writes (2), reads (3) or both (4)."""
        self.expects_ok(b"Z%d,%x,%x" % (kind, address, length))

    def remove_watchpoint(self, kind: int, address: int, length: int) -> None:
        self.expects_ok(b"z%d,%x,%x" % (kind, address, length))
