"""The README's indented blocks that begin with a dollar sign are a command and what it prints. Each is run with bash in the checkout."""

import pathlib
import re
import subprocess
import sys

ROOT = pathlib.Path(__file__).resolve().parents[2]


def blocks(text):
    """Command and expected output of each block; a command's line that ends in a backslash goes on in the next."""
    for block in re.findall(r"(?:^    .*\n)+", text, re.M):
        lines = [line[4:] for line in block.splitlines()]
        if lines[0].startswith("$ "):
            end = next(i for i, line in enumerate(lines) if not line.endswith("\\")) + 1
            yield "\n".join(lines[:end])[2:], "".join(line + "\n" for line in lines[end:])


def main():
    found = list(blocks((ROOT / "README.md").read_text()))
    for command, expected in found:
        done = subprocess.run(["bash", "-c", command], cwd=ROOT, capture_output=True, text=True)
        # Tabs are shown as blanks.
        printed = re.sub(r"\t", "  ", done.stdout)
        if (done.returncode, printed) != (0, expected):
            sys.exit(f"README: {command}\nprints\n{done.stdout}{done.stderr}and should print\n{expected}")
    if len(found) < 4:
        sys.exit(f"README: only {len(found)} commands found")
    print(f"readme: {len(found)} commands print what it says")


main()
