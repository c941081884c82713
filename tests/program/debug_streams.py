"""Sends fail_debug streams of packets that a seed draws, and compares its answers with the grammar of the GDB manual
(debug_grammar.py). Each stream has its own process, which must end in time and without a signal.

debug_streams.py DEBUG [SEED [STREAMS [SECONDS]]]

There are three kinds of streams. In a *sound* stream each packet has an acknowledgement and a reply that the manual
allows. A *damaged* stream also has packets with a wrong checksum, and packets that are too long: these are refused,
and all other answers are those of the stream without them. In a *mutated* stream any bytes may be changed: every
answer must be well formed.
"""

from __future__ import annotations

import os
import random
import subprocess
import sys
import time
from collections import Counter
from collections.abc import Callable, Sequence
from concurrent.futures import ThreadPoolExecutor
from dataclasses import dataclass

from debug_client import INTERRUPT, Parser, ProtocolError, framed
from debug_grammar import CONSOLE, RUNS, is_reply, is_some_reply
from replay import BUILT

SEED, STREAMS, SECONDS = 20261129, 10_000, 120.0
AT_ONCE, BATCH, MOST_PACKETS, MOST_MUTATIONS = 3, 200, 12, 6
ALONE = 20.0  # the seconds that one stream may take
TOO_LONG = 100_000
MOST_STATUS = 14  # the statuses of docs/FORMATS.md
ADDRESSES = (0x20000000, 0x20000020, 0x80000000, 0x8000003C, 0xF0000000, 4, 0xFFFFFFF0)
# Images, each with a site and options: runs that halt, trap and reach the limit, and the pc as a cell.
TARGETS = [
    [str(BUILT / f"{name}.elf"), *site.split(), "--ram", "0x80000000:64", "--limit", "2000", *flags.split()]
    for name, site, flags in (
        ("pin", "3 10 0", ""),
        ("pin", "8 0 4", "--pc"),
        ("checksum", "100 13 31", ""),
        ("frame", "40 1 7", ""),
        ("sort", "0 2 31", ""),
    )
]
Dice = random.Random

# --- Packets --------------------------------------------------------------------------------------

FIXED = (
    b"? g g vCont? qC qfThreadInfo qsThreadInfo qAttached qAttached:1 Hg0 Hc-1 Hg1 T1 T0 vMustReplyEmpty ! "
    b"Hg99 Hc2 Hx1 Hg H T99 T T1z Z0,20000008 Z0,20000008,zz Z1,20000008, z0,20000008 Z2,80000000 Z0,20000008,4;X1,00 "
    b"qSupported qSupported:swbreak+;multiprocess+;vContSupported+ qSupported:xmlRegisters=i386"
).split() + [b""]
MOVES = b"s s s bs bs bs c bc vCont;s vCont;c vCont;s:1 vCont;s:1;c vCont;C05 S05 C0b s20000000".split()
COMMANDS = ("site", "golden", "injected", "diff", "first", "output", "goto", "", "help", "goto -1", "goto 99999999999")
UNKNOWN = b"yuwjY"  # letters of no packet
LAST = (b"D", b"k", b"D;1", b"vKill;1")


def junk(dice: Dice) -> bytes:
    """Any bytes."""
    return bytes(dice.choices(range(256), k=dice.choice((0, 1, 2, 9, 60))))


def number(dice: Dice, most: int) -> bytes:
    """A hexadecimal number: small, up to the most, or of many digits."""
    return b"%x" % dice.choice((dice.randrange(40), dice.randrange(most + 1), dice.getrandbits(80)))


def range_of(dice: Dice) -> bytes:
    """An address and a length, mostly of memory that exists."""
    address = dice.choice(ADDRESSES) + dice.randrange(-4, 80)
    return b"%x,%x" % (address, dice.choice((0, 1, 4, 64, dice.randrange(5000), dice.getrandbits(40))))


def monitor(dice: Dice) -> bytes:
    """A command of `monitor`: one that exists, or any text, sometimes not in hexadecimal digits."""
    any_text = "".join(map(chr, dice.choices(range(1, 256), k=9)))
    text = dice.choice((*COMMANDS, f"goto {dice.randrange(700)}", any_text)).encode("latin-1")
    return b"qRcmd," + (text.hex().encode() if dice.random() < 0.9 else text)


def point(dice: Dice) -> bytes:
    """A breakpoint or watchpoint that is inserted or removed."""
    address, kind = dice.choice(ADDRESSES) + 4 * dice.randrange(12), dice.choice((1, 2, 4, 4, 8, 0, dice.getrandbits(34)))
    return b"%s%d,%x,%x" % (dice.choice((b"Z", b"Z", b"z")), dice.randrange(6), address, kind)


def write(dice: Dice) -> bytes:
    """A packet that writes registers or memory."""
    byte = b"%02x" % dice.randrange(256)
    registers = (b"G" + byte * 132, b"P%x=%s" % (dice.randrange(40), byte * 4))
    return dice.choice((*registers, b"M%s:%s" % (range_of(dice), byte), b"X%s:%s" % (range_of(dice), junk(dice))))


def features(dice: Dice) -> bytes:
    """A part of a target description, or of a file that does not exist."""
    name = dice.choice((b"target.xml", b"target.xml", b"other.xml", b""))
    return b"qXfer:features:read:%s:%s,%s" % (name, number(dice, 4000), number(dice, 4000))


def unknown(dice: Dice) -> bytes:
    """A packet that the manual does not have."""
    return bytes((dice.choice(UNKNOWN),)) + junk(dice)


DRAWN: list[Callable[[Dice], bytes]] = [
    lambda dice: dice.choice(FIXED),
    lambda dice: dice.choice(MOVES),
    lambda dice: dice.choice(MOVES),
    lambda dice: b"p" + number(dice, 33),
    lambda dice: b"m" + range_of(dice),
    features,
    monitor,
    point,
    write,
    unknown,
]


def packet(dice: Dice) -> bytes:
    """A packet that does not end the session."""
    return dice.choice(DRAWN)(dice)


def packets(dice: Dice) -> list[bytes]:
    """Some packets. One that ends the session is the last, if there is one."""
    found = [packet(dice) for _ in range(dice.randint(1, MOST_PACKETS))]
    return found + [dice.choice(LAST)] if dice.random() < 0.1 else found


def sent(data: bytes) -> bytes:
    """The frame of a packet, and acknowledgements of all that it may be answered with."""
    return framed(data) + b"+" * (40 if RUNS.fullmatch(data) else 1)


# --- Calls ----------------------------------------------------------------------------------------


class Wrong(Exception):
    """What a stream showed that must not be."""


def called(command: Sequence[str], stream: bytes) -> list[bytes]:
    """What a process answers to a stream, as acknowledgements and packets."""
    try:
        done = subprocess.run(command, input=stream, capture_output=True, timeout=ALONE)
    except subprocess.TimeoutExpired:
        raise Wrong(f"it did not end within {ALONE:.0f} seconds") from None
    if not 0 <= done.returncode <= MOST_STATUS or done.stderr.count(b"\n") > 1:
        raise Wrong(f"status {done.returncode}, and on the error output {done.stderr[:300]!r}")
    parser = Parser()
    try:
        items = list(parser.feed(done.stdout))
    except ProtocolError as error:
        raise Wrong(str(error)) from None
    if parser.rest:
        raise Wrong(f"the packet {bytes(parser.rest[:60])!r} has no end")
    return items


class Answers:
    """The answers to a stream, which are taken packet by packet."""

    def __init__(self, items: list[bytes]) -> None:
        self.items = iter(items)
        self.replies: list[bytes] = []  # all that were taken but for refusals

    def refusal(self, request: bytes) -> None:
        """Takes the refusal of a packet that is damaged: `-`. One that is too long may also have an error."""
        item = next(self.items, b"")
        reply = next(self.items, b"")[1:] if item == b"+" and len(request) == TOO_LONG else None
        if item != b"-" and (reply is None or not is_reply(request[:1], reply)):
            raise Wrong(f"{item!r} {reply!r} in place of a refusal of {request[:60]!r}")

    def reply(self, request: bytes, acknowledged: bool) -> bytes:
        """Takes the acknowledgement of a packet and its reply, and returns the reply."""
        if acknowledged and self.next() != b"+":
            raise Wrong(f"{self.replies[-1][:60]!r} in place of an acknowledgement of {request[:60]!r}")
        if request == b"k":
            return b""
        reply = self.next()
        while RUNS.fullmatch(request) and CONSOLE.fullmatch(reply[1:]):
            reply = self.next()
        if reply[:1] != b"$" or not is_reply(request, reply[1:]):
            raise Wrong(f"the reply {reply[:60]!r} to {request[:60]!r}")
        return reply[1:]

    def next(self) -> bytes:
        """The next acknowledgement or packet, or nothing after the last."""
        self.replies.append(next(self.items, b""))
        return self.replies[-1]

    def end(self) -> None:
        """Nothing is left."""
        if rest := next(self.items, None):
            raise Wrong(f"{rest[:60]!r} is the answer to no packet")


@dataclass
class Trial:
    """A stream that is tried, by its number."""

    debug: str
    seed: int
    number: int

    def run(self) -> str:
        """Tries the stream, and returns its kind. The complaint about it begins with the words that repeat it."""
        dice = Dice(f"{self.seed} {self.number}")
        kind = dice.choice((self.sound, self.sound, self.damaged, self.mutated, self.mutated))
        command = [self.debug, *dice.choice(TARGETS)]
        try:
            kind(command, dice)
        except Wrong as wrong:
            raise Wrong(f"stream {self.number} of seed {self.seed}, {' '.join(command[1:])}: {wrong}") from None
        return kind.__name__

    @staticmethod
    def sound(command: list[str], dice: Dice) -> None:
        """Each packet is acknowledged and has a reply, until one is QStartNoAckMode; then it has a reply."""
        requests = packets(dice)
        if dice.random() < 0.5:
            requests.insert(dice.randrange(len(requests)), b"QStartNoAckMode")
        answers, acknowledged = Answers(called(command, b"+" + b"".join(map(sent, requests)))), True
        for request in requests:
            if answers.reply(request, acknowledged) == b"OK" and request == b"QStartNoAckMode":
                acknowledged = False
        answers.end()

    @staticmethod
    def damaged(command: list[str], dice: Dice) -> None:
        """Packets that are refused change nothing."""
        requests, stream = [packet(dice) for _ in range(dice.randint(1, MOST_PACKETS))] + [b"g"], b"+"
        damages = [damage_of(dice) for _ in requests]
        for damage, request in zip(damages, requests):
            stream += framed(damage) if len(damage) == TOO_LONG else with_wrong_sum(dice, damage)
            stream += sent(request)
        answers = Answers(called(command, stream))
        for damage, request in zip(damages, requests):
            answers.refusal(damage)
            answers.reply(request, True)
        answers.end()
        if answers.replies != called(command, b"+" + b"".join(map(sent, requests))):
            raise Wrong(f"other answers than without the packets {damages!r:.300}")

    @staticmethod
    def mutated(command: list[str], dice: Dice) -> None:
        """All answers are well formed, whatever was sent."""
        stream = b"+" + b"".join(map(sent, packets(dice)))
        for _ in range(dice.randint(1, MOST_MUTATIONS)):
            stream = mutation(dice, stream)
        for item in called(command, stream):
            if item[:1] == b"$" and not is_some_reply(item[1:]):
                raise Wrong(f"{item[:60]!r} is no reply of the manual; the stream was {stream!r:.2000}")


def damage_of(dice: Dice) -> bytes:
    """A packet that is refused: often one that would go to another place."""
    move = dice.choice((*MOVES, b"qRcmd," + b"goto 3".hex().encode()))
    return dice.choice((move, move, packet(dice), UNKNOWN[:1] * TOO_LONG if dice.random() < 0.3 else b"g"))


def with_wrong_sum(dice: Dice, data: bytes) -> bytes:
    """A frame whose checksum is another number, or none."""
    frame = framed(data)
    other = b"%02x" % ((int(frame[-2:], 16) + dice.randrange(1, 256)) % 256)
    return frame[:-2] + (other if dice.random() < 0.8 else dice.choice((b"zz", b"0x", b"  ", b"-1")))


def mutation(dice: Dice, stream: bytes) -> bytes:
    """The stream with some bytes changed, inserted, repeated or removed."""
    at = dice.randrange(len(stream) + 1)
    end = min(len(stream), at + dice.randrange(1, 40))
    return dice.choice(
        (
            stream[:at] + bytes((dice.randrange(256),)) + stream[at + 1 :],
            stream[:at] + junk(dice) + stream[at:],
            stream[:at] + dice.choice((INTERRUPT, b"-", b"$", b"#", b"}", b"*", b"\0", b"+")) + stream[at:],
            stream[:at] + stream[end:],
            stream[:end] + stream[at:end] * dice.randint(1, 60) + stream[end:],
            stream[:at],
            stream[:at] + sent(packet(dice)) + stream[at:],
            stream[:at] + b"0" * dice.choice((5000, TOO_LONG)) + stream[at:],
        )
    )


def main() -> int:
    debug = os.path.abspath(sys.argv[1])
    words = (*sys.argv[2:5], *(str(number) for number in (SEED, STREAMS, SECONDS)[len(sys.argv) - 2 :]))
    seed, streams, seconds = int(words[0]), int(words[1]), float(words[2])
    counts, bad, deadline = Counter[str](), 0, time.monotonic() + seconds
    with ThreadPoolExecutor(AT_ONCE) as pool:
        for start in range(0, streams, BATCH):
            if time.monotonic() > deadline:
                print(f"skipped: {streams - start} of {streams} streams, after {seconds:.0f} seconds")
                break
            for done in [pool.submit(Trial(debug, seed, at).run) for at in range(start, min(start + BATCH, streams))]:
                try:
                    counts[done.result()] += 1
                except Wrong as wrong:
                    bad += 1
                    if bad < 10:
                        print(f"differs: {wrong}", flush=True)
    print(f"{', '.join(f'{count} {kind}' for kind, count in sorted(counts.items()))}: {bad} streams that differ")
    return 1 if bad else 0


if __name__ == "__main__":
    sys.exit(main())
