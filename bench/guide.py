#!/usr/bin/env python3
"""Runs each program of docs/LANGUAGE.md as it stands, and compares its report and its exit status with what stands there.

- A block `fast` is a program. The block `text` that comes next, with no other program between, is the report of `fast run`;
  without one nothing is written. A block with a name is a file for the commands that follow.
- A block `sh` has commands over such files, and the next block `text` has all that they write.
- In a table with the columns Example and Line an example is a program, a file of trees, or a command of bash that writes
  one, and the line is what it gets. A second piece of code in the cell is the command.

usage: guide.py PROGRAM [GUIDE]
"""

import os
import re
import subprocess
import sys
import tempfile


class Example:
    """Commands over files, with all that they write. A file is bytes, or a command of bash that writes it."""

    def __init__(self, line, files, commands, report):
        self.line, self.files, self.commands, self.report = line, files, commands, report


def blocks(lines):
    """The fenced blocks, each with its line's number, its words and its text."""
    begin = None
    for number, line in enumerate(lines, 1):
        if line.startswith("```") and begin is None:
            begin, words, body = number, line[3:].split(), []
        elif line.startswith("```"):
            yield begin, words, "".join(body)
            begin = None
        elif begin is not None:
            body.append(line)


def of_blocks(lines):
    """The examples of the blocks, and the files that have names."""
    found, files, waiting = [], {}, None

    for line, words, body in blocks(lines):
        if words == ["text"] and waiting:
            waiting.report, waiting = body, None
        elif words[1:]:
            files[words[1]] = body.encode()
        elif words in (["fast"], ["sh"]):
            commands = ["run FILE"] if words == ["fast"] else [it.removeprefix("fast ") for it in body.splitlines()]
            waiting = Example(line, {"FILE": body.encode()} if words == ["fast"] else dict(files), commands, "")
            found.append(waiting)
    return found, files


def of_tables(lines, files):
    """The examples of the tables."""
    columns = []
    for number, line in enumerate(lines, 1):
        cells = [it.strip().replace("\\|", "|") for it in re.split(r"(?<!\\)\|", line.strip())[1:-1]]
        if not cells:
            columns = []
        elif not columns:
            columns = cells
        elif {"Example", "Line"} <= set(columns) and not cells[0].startswith("---"):
            codes = re.findall(r"`([^`]*)`", cells[columns.index("Example")])
            report = re.findall(r"`([^`]*)`", cells[columns.index("Line")])[0]
            name = "TREES" if " at TREES:" in report else "FILE"
            command = codes[1] if codes[1:] else "run FILE" if name == "FILE" else "accepts numbers.fast p TREES"
            text = codes[0] if codes[0].endswith(f">{name}") else codes[0].encode()
            yield Example(number, {**files, name: text}, [command], report + "\n")


def examples(guide):
    with open(guide, encoding="utf-8") as it:
        lines = it.readlines()
    found, files = of_blocks(lines)
    return found + list(of_tables(lines, files))


def status_of(report):
    """The exit status that goes with this report."""
    refused = re.findall(r"^refused (\d+) ", report, re.M)
    return (4 if int(refused[-1]) >= 30 else 3) if refused else int(bool(re.search(r"^assert \d+ fail", report, re.M)))


def run(program, example):
    """What the commands write, and the last exit status."""
    with tempfile.TemporaryDirectory() as folder:
        for name, text in example.files.items():
            if isinstance(text, bytes):
                with open(f"{folder}/{name}", "wb") as it:
                    it.write(text)
            else:
                subprocess.run(["bash", "-c", text], cwd=folder, check=True)
        ran = [subprocess.run([program, *it.split()], cwd=folder, capture_output=True) for it in example.commands]
    return b"".join(it.stdout for it in ran).decode(), ran[-1].returncode


def main():
    program = os.path.abspath(sys.argv[1])
    guide = sys.argv[2] if sys.argv[2:] else f"{os.path.dirname(os.path.abspath(__file__))}/../docs/LANGUAGE.md"
    found, wrong = examples(guide), 0
    for example in found:
        report, status = run(program, example)
        if report != example.report or status != status_of(report):
            wrong += 1
            print(f"line {example.line}: status {status}, and not the report that stands there:\n{report[:1000]}", end="")
    print(f"{len(found)} examples, {wrong} of them wrong")
    sys.exit(1 if wrong else 0)


main() if __name__ == "__main__" else None
