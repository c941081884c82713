"""What the GDB manual allows as the reply to each packet (appendix "GDB Remote Serial Protocol")."""

from __future__ import annotations

import re

ERROR = rb"E[0-9a-f]{2}|E\..*"
HEX = rb"(?:[0-9a-fx]{2})*"  # xx is the byte of a register that is not available
THREAD = rb"(?:p-?[0-9a-f]+(?:\.-?[0-9a-f]+)?|-?[0-9a-f]+)"
# "Stop Reply Packets": pairs follow the signal of T, and W and X may name the process.
PAIR = rb"[^:;]+:[^;]*"
STOP = rb"S[0-9a-f]{2}|T[0-9a-f]{2}(?:%s(?:;%s)*;?)?|[WX][0-9a-f]{2}(?:;process:[0-9a-f]+)?|N" % (PAIR, PAIR)
FEATURE = rb"[A-Za-z0-9_.:-]+(?:=[^;]*|[+?-])"

# The packets that run the program: O packets come before their reply.
RUNS = re.compile(rb"[sc](?:[0-9a-f]+)?|[SC][0-9a-f]{2}(?:;[0-9a-f]+)?|b[sc]|vCont;.*|qRcmd,.*", re.DOTALL)
CONSOLE = re.compile(rb"O(?:[0-9a-f]{2})+")
# Of each packet the replies. A packet, or a form of it, that the program does not know has the empty one.
RULES = [
    (rb"\?", STOP),
    (rb"g", HEX + rb"|" + ERROR),
    (rb"p.*", HEX + rb"|" + ERROR),
    (rb"m.*", HEX + rb"|" + ERROR),
    (rb"[GPMX].*", rb"|" + ERROR),  # this program has nothing that may be written
    (rb"qRcmd,.*", rb"OK|(?:[0-9a-f]{2})*|" + ERROR),
    (rb"(?:[sc]|[SC][0-9a-f]{2}|b[sc]|vCont;).*", STOP + rb"|" + ERROR + rb"|"),
    (rb"[Zz][0-4],[0-9a-f]+,[0-9a-f]+", rb"OK|" + ERROR),  # this program has all these breakpoints and watchpoints
    (rb"[Zz].*", ERROR + rb"|"),  # a kind is missing, or what follows it is unknown
    (rb"H[cg](?:-1|0*[01])|T(?:-1|0*[01])", rb"OK"),  # the only thread, any thread, or all threads
    (rb"[HT].*", ERROR),
    (rb"D.*|vKill;.*", rb"OK|" + ERROR + rb"|"),
    (rb"!", rb"OK|"),
    (rb"vRun;.*", STOP + rb"|" + ERROR + rb"|"),
    (rb"vCont\?", rb"(?:vCont(?:;[a-zA-Z]+)*)?"),
    (rb"qC", rb"(?:QC%s)?" % THREAD),
    (rb"qAttached.*", rb"[01]?|" + ERROR),
    (rb"qfThreadInfo|qsThreadInfo", rb"(?:m%s(?:,%s)*|l)?" % (THREAD, THREAD)),
    (rb"qSupported.*", rb"%s(?:;%s)*" % (FEATURE, FEATURE)),
    (rb"qXfer:features:read:.*", rb"[lm].*|" + ERROR + rb"|"),
    (rb"QStartNoAckMode", rb"OK|"),
]
COMPILED = [(re.compile(request, re.DOTALL), re.compile(reply, re.DOTALL)) for request, reply in RULES]
ANY = re.compile(b"|".join(b"(?:%s)" % reply for _, reply in RULES), re.DOTALL)


def is_reply(request: bytes, reply: bytes) -> bool:
    """Whether the manual allows this reply. An unknown packet has the empty one."""
    for wanted, allowed in COMPILED:
        if wanted.fullmatch(request):
            return allowed.fullmatch(reply) is not None
    return reply == b"" or re.fullmatch(ERROR, reply, re.DOTALL) is not None


def is_some_reply(reply: bytes) -> bool:
    """Whether it is the reply to some packet, or console output."""
    return ANY.fullmatch(reply) is not None or CONSOLE.fullmatch(reply) is not None
