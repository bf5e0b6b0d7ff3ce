#!/usr/bin/env python3
"""Gives the program texts that are programs or nearly so (mutate.py), by `check`, `run`, `accepts` and `apply`, as many at once
as there are processes, and prints how the runs ended: with a status from 0 to 7, nothing on standard error, and a report whose
last byte is a line feed where the status is 0 to 4. A run may be late, after 20 seconds. Each other end is wrong: it is told,
and its text is kept in the folder. Ends with 0 where none is.

usage: changed.py PROGRAM COUNT SEED KEPT [PROCESSES]
"""

import glob
import multiprocessing
import os
import random
import re
import shutil
import subprocess
import sys
import tempfile

import mutate

COMMANDS = ["check", "run", "accepts", "apply"]
SECONDS = 20
LATE = 124


def examples():
    here = os.path.dirname(os.path.abspath(__file__))
    found = []
    for file in sorted(glob.glob(f"{here}/../crates/examples/data/*.fast")):
        with open(file, "rb") as text, open(file.removesuffix(".fast") + ".report", "rb") as report:
            found.append((text.read(), mutate.trees_of(report.read())))
    return found


def write(name, content):
    with open(name, "wb") as it:
        it.write(content)


def changed(seed, number, texts, name):
    """Writes the text of this number with its trees, and gives a language and a transformation of it."""
    chance = random.Random(f"{seed} {number}")
    text, trees = chance.choice(texts)
    if chance.random() < 0.8:
        # what is changed in a comment changes nothing
        text = re.sub(rb"//.*", b"", text)
    names = [mutate.name_of(chance, word, text) for word in (rb"\blang", rb"\btrans")]
    write(f"{name}.fast", mutate.mutated(chance, text))
    write(f"{name}.trees", mutate.mutated(chance, trees) if chance.random() < 0.5 else trees)
    return names


def run(words):
    """The status of a run, and whether it ended well."""
    try:
        it = subprocess.run(words, stdin=subprocess.DEVNULL, capture_output=True, timeout=SECONDS, close_fds=False)
    except subprocess.TimeoutExpired:
        return LATE, True
    ends = it.returncode > 4 or not it.stdout or it.stdout.endswith(b"\n")
    # texts can be taken and reports written here, so nothing but want of memory may stop a run from outside
    return it.returncode, 0 <= it.returncode <= 7 and it.returncode != 6 and not it.stderr and ends


def share(words):
    """Every so many texts, from the first on: how the runs ended, by command and status, and the wrong ones."""
    program, count, seed, kept, first, step = words
    texts, ends, wrong = examples(), {}, []
    with tempfile.TemporaryDirectory() as folder:
        name = f"{folder}/text"
        for number in range(first, count, step):
            lang, trans = changed(seed, number, texts, name)
            for command in COMMANDS:
                more = {"accepts": [lang, f"{name}.trees"], "apply": [trans, f"{name}.trees"]}.get(command, [])
                status, well = run([program, command, f"{name}.fast", *more])
                ends[command, status] = ends.get((command, status), 0) + 1
                if not well:
                    for kind in ("fast", "trees"):
                        shutil.copy(f"{name}.{kind}", f"{kept}/{number}.{kind}")
                    wrong.append(f"wrong: {command} {number} {lang} {trans}: status {status}")
    return ends, wrong


def main():
    program, count, seed, kept = sys.argv[1], int(sys.argv[2]), sys.argv[3], sys.argv[4]
    processes = int(sys.argv[5]) if len(sys.argv) > 5 else os.cpu_count()
    with multiprocessing.Pool(processes) as pool:
        shares = pool.map(share, [(program, count, seed, kept, first, processes) for first in range(processes)])
    print(f"{'':20}" + "".join(f"{it:>7}" for it in [0, 1, 2, 3, 4, 5, 6, 7, "late", "others"]))
    for command in COMMANDS:
        own = {}
        for ends, _ in shares:
            for (other, status), many in ends.items():
                if other == command:
                    own[status] = own.get(status, 0) + many
        counts = [own.pop(status, 0) for status in [*range(8), LATE]]
        print(f"{'changed: ' + command:20}" + "".join(f"{it:7}" for it in [*counts, sum(own.values())]))
    wrong = [it for _, its in shares for it in its]
    print("\n".join([*wrong, f"{count} texts, {len(wrong)} runs ended wrongly"]))
    return 1 if wrong else 0


if __name__ == "__main__":
    sys.exit(main())
