"""Prints the words that an interactive shell passes to a command after a line with tab keys was typed.

completes.py SHELL FILE COMMAND          (bash, zsh or fish; FILE is its completion of COMMAND, one of the programs)

It reads lines from its standard input, types each of them with a tab for each `@`, and prints a line with the words
for each.
"""

from __future__ import annotations

import os
import pathlib
import pty
import re
import select
import signal
import sys
import tempfile
import time

# Each shell: how it is started, and what is typed first, with the file in place of %s. The command prints its words.
SHELLS = {
    "bash": (["bash", "--noprofile", "--norc", "-i"], "source %s; fail_star() { printf '<<%%s>>' \"$*\"; echo; }"),
    "zsh": (
        ["zsh", "-f", "-i"],
        "fpath=(%s $fpath); autoload -Uz compinit; compinit -u -D; fail_star() { printf '<<%%s>>' \"$*\"; echo; }",
    ),
    "fish": (["fish", "--private", "--no-config"], "source %s; function fail_star; printf '<<%%s>>' (string join ' ' -- $argv); echo; end"),
}
SECONDS = 20


class Terminal:
    """A shell behind a terminal of its own."""

    def __init__(self, words: list[str], folder: str) -> None:
        self.child, self.file = pty.fork()
        if self.child == 0:
            os.chdir(folder)
            os.environ.update(TERM="dumb", HOME=folder, PS1="> ", LC_ALL="C.UTF-8", XDG_CONFIG_HOME=folder, XDG_DATA_HOME=folder)
            os.execvp(words[0], words)

    def until(self, pattern: str) -> re.Match[str]:
        """What comes up to a pattern; a shell that says nothing for long is an error."""
        text, end = "", time.monotonic() + SECONDS
        while time.monotonic() < end:
            if select.select([self.file], [], [], 0.2)[0]:
                try:
                    text += os.read(self.file, 4096).decode("utf-8", "replace")
                except OSError:
                    break
            if found := re.search(pattern, text):
                return found
        raise SystemExit(f"no answer of the shell, after {text[-300:]!r}")

    def type(self, text: str) -> None:
        os.write(self.file, text.encode())

    def close(self) -> None:
        os.close(self.file)
        os.kill(self.child, signal.SIGKILL)
        os.waitpid(self.child, 0)


def main() -> None:
    shell, completion, command = sys.argv[1], pathlib.Path(sys.argv[2]).resolve(), sys.argv[3]
    start, first = SHELLS[shell]
    first = first.replace("fail_star", command)
    with tempfile.TemporaryDirectory() as folder:
        for name in ("image.elf", "kept.keep"):
            pathlib.Path(folder, name).touch()
        terminal = Terminal(start, folder)
        try:
            terminal.type(first % (completion.parent if shell == "zsh" else completion) + "\n")
            terminal.type(f"{command} ready\n")
            terminal.until("<<ready>>")
            for number, line in enumerate(sys.stdin.read().splitlines()):
                # The number tells this line's answer from an earlier one that is written again.
                terminal.type(f"{command} {line} {number}\n".replace("@", "\t"))
                print(terminal.until(rf"<<([^<>]*?) +{number}>>")[1], flush=True)
        finally:
            terminal.close()


if __name__ == "__main__":
    main()
