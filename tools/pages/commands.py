"""The commands of a page, and the numbers that commands print.

A block `console tested` has lines `$ COMMAND`, each with what the command prints. A line `[...]` matches any number of
lines. A comment right after a number, `<!-- count: COMMAND -->`, has the command that prints it. In the page the number
may have commas. With `about:` in place of `count:` it may differ by a twentieth. Commands run in the folder at the top
of the repository, and find its programs on PATH.
"""

import os
import re
import subprocess
import tempfile
from pathlib import Path

ANY_LINES = "[...]"
NUMBER = re.compile(r"([\w.,]+)[*`]*<!-- (count|about): (.+?) -->")
COMMENT = re.compile(r"<!-- *(?:count|about)\b")
LOGIC = re.compile(r"\blogic ([0-9a-f]{16})\b")


def run_shell(script, top):
    """Returns the status of a script, which has ten minutes, and what it prints."""
    how = {"stdin": subprocess.DEVNULL, "stdout": subprocess.PIPE, "stderr": subprocess.STDOUT, "check": False}
    environment = {**os.environ, "PATH": f"{top}{os.pathsep}{os.environ['PATH']}"}
    ran = subprocess.run(["timeout", "600", "bash", "-c", script], cwd=top, env=environment, **how)
    return ran.returncode, ran.stdout.decode("utf-8", "replace")


def steps(text):
    """Returns the commands of a console block, each with the lines that it must print."""
    found = []
    for line in text.splitlines():
        if line.startswith("$ "):
            found.append((line[2:], []))
        elif found:
            found[-1][1].append(line)
    return found


def is_printed(wanted, printed):
    """Returns true if a text is what the lines of a page say."""
    lines = [r"(?:.*\n)*?" if line == ANY_LINES else re.escape(line) + "\n" for line in wanted]
    text = printed if printed.endswith("\n") or not printed else f"{printed}\n"
    return re.fullmatch("".join(lines), text) is not None


def outputs(commands, top):
    """Runs commands one after another in one shell, and returns what each prints."""
    with tempfile.TemporaryDirectory() as room:
        files = [Path(room, str(at)) for at in range(len(commands))]
        run_shell("".join(f"{{ {command}\n}} >{file} 2>&1\n" for command, file in zip(commands, files)), top)
        return [file.read_text(encoding="utf-8", errors="replace") for file in files]


def block_faults(page, top):
    """Runs the tested blocks of a page. Returns how many commands there are, and the faults."""
    count, found = 0, []
    for block in page.blocks:
        if block.words == ["console", "tested"]:
            shown = steps(block.text)
            printed = outputs([command for command, _ in shown], top)
            count += max(1, len(shown))
            found += [] if shown else [f"line {block.line}: the block has no line that begins with `$ `"]
            found += [
                f"line {block.line}: `{command}` prints\n{text}"
                for (command, wanted), text in zip(shown, printed)
                if not is_printed(wanted, text)
            ]
        elif len(block.words) > 1 and not block.is_excerpt():
            count += 1
            found.append(f"line {block.line}: nothing reads the words `{' '.join(block.words)}` of a block")
    return count, found


def is_number(written, printed, kind):
    """Returns true if a number of a page is the one that a command prints, or about so."""
    value = written.replace(",", "")
    if kind == "count":
        return value == printed
    return value.isdigit() and printed.isdigit() and abs(int(printed) - int(value)) <= int(printed) // 20


def number_faults(page, top):
    """Returns how many numbers of a page have a command, and the faults."""
    found, numbers, comments = [], list(NUMBER.finditer(page.prose)), len(COMMENT.findall(page.prose))
    for number in numbers:
        status, printed = run_shell(f"set -euo pipefail\n{number[3]}", top)
        if status or not is_number(number[1], printed.strip(), number[2]):
            at = page.line_of(number.start())
            found.append(f"line {at}: the number {number[1]} is {printed.strip()} by `{number[3]}`, status {status}")
    if comments != len(numbers):
        found.append(f"{comments - len(numbers)} comments are not of the form `NUMBER<!-- count: COMMAND -->`")
    return comments, found


def toolchain_faults(page, toolchain):
    """Returns how often a page names the logic of the toolchain, and the faults: its number is another one."""
    used, named = LOGIC.search(toolchain), list(LOGIC.finditer(page.prose))
    return len(named), [
        f"line {page.line_of(logic.start())}: the toolchain is not `{logic[0]}`, but `{toolchain}`"
        for logic in named
        if used is None or logic[1] != used[1]
    ]
