#!/usr/bin/env python3
"""Compares what bash, zsh and fish offer after words of cborc, with the completions in share/.

    scripts/completions.py    tries each shell that is installed
"""

import os
import pty
import re
import select
import shutil
import subprocess
import sys
import tempfile
import time

SHARE = os.path.join(os.path.dirname(os.path.dirname(os.path.abspath(__file__))), "share")
COMMANDS = {"show", "events", "check", "canon", "compare"}
SHARED = {"--depth", "--bytes", "--keys", "--hex", "--quiet", "--explain", "--help"}

# What is on the line, and what is offered there; of options, in each shell, only the long ones.
ROWS = [
    ("cborc c", {"check", "canon", "compare"}),
    ("cborc -", {"--help", "--version"}),
    ("cborc help ", COMMANDS),
    ("cborc help c", {"check", "canon", "compare"}),
    ("cborc show -", SHARED | {"--indent", "--seq"}),
    ("cborc events -", SHARED | {"--annotate", "--seq"}),
    ("cborc check -", SHARED | {"--strict", "--seq", "--order"}),
    ("cborc canon -", SHARED | {"--hex-out", "--seq", "--order"}),
    ("cborc canon --o", {"--order"}),
    ("cborc check --order ", {"bytewise", "length", "length-first"}),
    ("cborc show --keys ", {"any", "basic"}),
    ("cborc show re", {"records.cbor"}),
    ("cborc check one.cbor re", {"records.cbor"}),
]

# For bash only: a name with a space, and a word with its value, which bash splits.
ROWS_OF_BASH = [
    ("cborc show tw", {"two words.cbor"}),
    ("cborc check --order=", {"bytewise", "length", "length-first"}),
    ("cborc check --order=by", {"bytewise"}),
]


def offered(words):
    """The words without the short options."""
    return {word for word in words if not re.fullmatch(r"-\w", word)}


def of_bash(line, folder):
    words = re.split(r" |(?==)|(?<==)", line)
    script = f"""source {SHARE}/cborc.bash
COMP_WORDS=({' '.join(f"'{word}'" for word in words)}); COMP_CWORD={len(words) - 1}
_cborc; printf '%s\\n' "${{COMPREPLY[@]}}" """
    asked = subprocess.run(["bash", "-c", script], cwd=folder, capture_output=True, text=True)
    return set(asked.stdout.splitlines())


def of_fish(line, folder):
    script = f"source {SHARE}/cborc.fish; complete -C '{line}'"
    home = {**os.environ, "HOME": folder, "XDG_CONFIG_HOME": folder}
    asked = subprocess.run(["fish", "--no-config", "-c", script], cwd=folder, capture_output=True, text=True, env=home)
    return {entry.split("\t")[0] for entry in asked.stdout.splitlines()}


# What zsh would offer, reported by the function that receives the offers.
TELLER = """
PS1=; fpath=(%s $fpath); autoload -Uz compinit; compinit -D -u
compadd() {
    local -a kept; local at
    builtin compadd -O kept "$@"
    for at in $kept; do print -r -- "offer:$at:"; done
    builtin compadd "$@"
}
print ready:
"""


def read_until(terminal, end, seconds=60):
    found = ""
    until = time.monotonic() + seconds
    while end not in found and time.monotonic() < until:
        if select.select([terminal], [], [], 0.1)[0]:
            found += os.read(terminal, 4096).decode(errors="replace")
    return found


def of_zsh(line, folder):
    child, terminal = pty.fork()
    if child == 0:
        os.chdir(folder)
        os.environ["TERM"] = "dumb"
        os.execvp("zsh", ["zsh", "-f", "-i"])
    setup = os.path.join(folder, ".setup")
    with open(setup, "w") as file:
        file.write(TELLER % SHARE)
    os.write(terminal, f"source {setup}\n".encode())
    read_until(terminal, "ready:")
    os.write(terminal, line.encode() + b"\t")
    time.sleep(1)
    os.write(terminal, b"\x15print done:\n")
    found = read_until(terminal, "\ndone:")
    os.write(terminal, b"\x15exit\n")
    os.close(terminal)
    os.waitpid(child, 0)
    return set(re.findall(r"offer:([^:\s]+):", found))


SHELLS = {"bash": of_bash, "zsh": of_zsh, "fish": of_fish}


def faults():
    found = []
    with tempfile.TemporaryDirectory() as folder:
        for name in ("records.cbor", "two words.cbor"):
            open(os.path.join(folder, name), "w").close()
        for shell, ask in SHELLS.items():
            if not shutil.which(shell):
                print(f"completions: no {shell} here")
                continue
            for line, wanted in ROWS + (ROWS_OF_BASH if shell == "bash" else []):
                got = offered(ask(line, folder))
                if got != wanted:
                    found.append(f"{shell} offers after '{line}' {sorted(got)}, and not {sorted(wanted)}")
    return found


if __name__ == "__main__":
    reported = faults()
    for fault in reported:
        print("completions:", fault)
    sys.exit(1 if reported else 0)
