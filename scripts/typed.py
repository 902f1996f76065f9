#!/usr/bin/env python3
"""typed.py bash|zsh TEXT: types `awkbox TEXT` and a tab to that shell, with the completions of this repository, and
then Enter.

Prints the words that awkbox is called with then, a line for each. The shell reads no files of the user."""

import os
import pty
import select
import shlex
import sys
import tempfile
import time
from pathlib import Path

COMPLETIONS = Path(__file__).resolve().parent.parent / "completions"
PROMPT = b"ready to type> "
SECONDS = 20


def rc(shell: str, told: Path) -> str:
    """What the shell reads as it starts."""
    load = {
        "bash": f". {shlex.quote(str(COMPLETIONS))}/awkbox.bash",
        "zsh": f"fpath=({shlex.quote(str(COMPLETIONS))} $fpath); autoload -Uz compinit; compinit -u -D",
    }[shell]
    # In two parts, so that the prompt is not what is typed.
    return f"{load}\nawkbox() {{ printf '%s\\n' \"$@\" > {shlex.quote(str(told))}; exit; }}\nPS1='ready to ''type> '\n"


def read(terminal: int, is_enough, end: float) -> bytes:
    got = b""
    while not is_enough(got) and time.monotonic() < end:
        if select.select([terminal], [], [], 0.1)[0]:
            try:
                got += os.read(terminal, 4096)
            except OSError:  # the shell is gone
                break
    return got


def main() -> int:
    shell, text = sys.argv[1:]
    with tempfile.TemporaryDirectory() as room:
        told = Path(room) / "told"
        start = Path(room) / (".zshrc" if shell == "zsh" else "rc")
        start.write_text(rc(shell, told))
        words = ["zsh", "-d", "-i"] if shell == "zsh" else ["bash", "--noprofile", "--rcfile", str(start), "-i"]
        child, terminal = pty.fork()
        if child == 0:
            os.environ.update(ZDOTDIR=room, TERM="dumb", INPUTRC="/dev/null", HISTFILE="/dev/null", LC_ALL="C")
            os.execvp(words[0], words)
        end = time.monotonic() + SECONDS
        read(terminal, lambda got: PROMPT in got, end)
        os.write(terminal, f"awkbox {text}\t".encode())
        read(terminal, lambda _: False, time.monotonic() + 1)
        os.write(terminal, b"\n")
        read(terminal, lambda _: told.exists() and told.read_text().endswith("\n"), end)
        os.close(terminal)
        os.waitpid(child, 0)
        print(told.read_text() if told.exists() else "", end="")
        return 0 if told.exists() else 1


if __name__ == "__main__":
    sys.exit(main())
