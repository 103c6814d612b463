#!/usr/bin/env python3
"""Runs the blocks of a README, and compares their output with what it promises.

    run_readme.py sh README            runs its ```sh blocks by bash, in this folder, up to the first that fails
    run_readme.py sql README WORD..    gives its ```sql blocks to one run of the command WORD.., a client of a database

In a ```sql block a line that begins with `-- ` is a line of the output, also of an error. Together, in their order, they
must be all lines of the output.
"""

import re
import subprocess
import sys
from pathlib import Path


def blocks(readme, language):
    found = re.findall(rf"(?ms)^```{language}\n(.*?)^```$", Path(readme).read_text(encoding="utf-8"))
    if not found:
        sys.exit(f"{readme}: no block of {language}")
    return found


def run_sh(readme):
    for block in blocks(readme, "sh"):
        if subprocess.run(["bash", "-euo", "pipefail", "-c", block]).returncode:
            sys.exit(f"{readme}: this block fails\n{block}")


def run_sql(readme, command):
    text = "".join(blocks(readme, "sql"))
    promised = [line[3:].strip() for line in text.splitlines() if line.startswith("-- ")]
    # by lines, so that output and errors come in their order
    run = subprocess.run(["stdbuf", "-oL", *command], input=text, stdout=subprocess.PIPE, stderr=subprocess.STDOUT, text=True)
    # the number of the line is not promised
    output = [re.sub(r"^(\w+ error) near line \d+:", r"\1:", line.strip()) for line in run.stdout.splitlines()]
    output = [line for line in output if line]
    for number, (wanted, found) in enumerate(zip(promised + [None], output + [None])):
        if wanted != found:
            sys.exit(f"{readme}: line {number + 1} of the output\n  promised {wanted}\n  found    {found}")


def main(words):
    if len(words) == 2 and words[0] == "sh":
        run_sh(words[1])
    elif len(words) > 2 and words[0] == "sql":
        run_sql(words[1], words[2:])
    else:
        sys.exit(__doc__)


if __name__ == "__main__":
    main(sys.argv[1:])
