#!/usr/bin/env python3
"""Proves and builds the program: as many crates side by side as there are processors and memory for, those first for which
the longest chain of others waits (`rt run` reads all crates before it proves any, and proves them one after the other). A
crate is proved again where it or one below it changed; what was proved is kept in the folders out/. Standard error tells how
far it is.

usage: build.py
"""

import concurrent.futures
import fcntl
import functools
import hashlib
import os
import shutil
import subprocess
import sys
import threading
import time

TOP = os.path.dirname(os.path.dirname(os.path.abspath(__file__)))
PROGRAM = "fast"
# What the proof of one crate takes of the memory at most, in kilobytes.
SHARE = 4_000_000
# Seconds of which nothing is told where standard error is no terminal.
SILENT = 5


def kit():
    """The folder of the prover, beside its command."""
    command = shutil.which("rt")
    if command is None:
        raise SystemExit("fast: the kit's command `rt` isn't on the path, and the program is proved where it is built")
    return os.path.dirname(os.path.dirname(os.path.realpath(command)))


KIT = kit()


class Crate:
    """A crate of the repository, the libraries that it names, and the mark that its last build left."""

    def __init__(self, name, uses):
        self.name, self.uses = name, uses
        self.folder = f"{TOP}/crates/{name}"
        self.is_program = os.path.exists(f"{self.folder}/src/main.rt")
        self.made = f"{self.folder}/out/{name}.o" if self.is_program else f"{self.folder}/out/rlib/{name}.rlib"
        self.mark = f"{os.path.dirname(self.made)}/built"
        self.log = f"{self.folder}/out/build.log"

    @functools.cached_property
    def files(self):
        """The files that are proved, and what was read of them."""
        found = {}
        for part in ("src", "specs", "proofs"):
            for at, _, names in os.walk(f"{self.folder}/{part}"):
                for name in names:
                    if name.endswith((".rt", ".antt")):
                        with open(f"{at}/{name}", "rb") as file:
                            found[os.path.relpath(f"{at}/{name}", self.folder)] = file.read()
        return found

    @functools.cached_property
    def sum(self):
        """What tells whether this crate or one below it changed."""
        found = hashlib.sha256(KIT.encode())
        with open(f"{KIT}/KIT-ID", "rb") as file:
            found.update(file.read())
        for name, text in sorted(self.files.items()):
            found.update(f"{name} {len(text)}\n".encode() + text)
        for crate in self.uses.values():
            found.update(crate.sum.encode() if crate else b"kit")
        return found.hexdigest()

    @functools.cached_property
    def weight(self):
        """About how long its proof takes, beside those of others."""
        return sum(map(len, self.files.values()))

    def is_built(self):
        """Whether the last build was of this very text."""
        if not os.path.exists(self.mark):
            return False
        with open(self.mark, encoding="utf-8") as file:
            return file.read() == self.sum

    @functools.cached_property
    def below(self):
        """The crates of the repository that it stands on, near and far."""
        found = {}
        for name, crate in self.uses.items():
            if crate:
                found.update({name: crate, **crate.below})
        return found

    def words(self, jobs):
        """The command that proves and builds the crate over what was built below it, by so many processors."""
        words = [f"{KIT}/bin/rattle", "build", "--crate-name", self.name]
        words.append("src/main.rt" if self.is_program else "src/lib.rt")
        for name, crate in {**self.uses, "std": None}.items():
            words += ["--extern", f"{name}={crate.made if crate else f'{KIT}/rlibs/{name}.rlib'}"]
        for folder in [os.path.dirname(it.made) for it in self.below.values()] + [f"{KIT}/rlibs"]:
            words += ["-L", f"dependency={folder}"]
        words += ["--antt-project", f"{KIT}/rattle/logic/antt-project.json", "--logic-built", f"{KIT}/logic_built"]
        words += ["--incremental", "out/incremental", "--jobs", str(jobs), "-o", self.made]
        return words + (["--toolchain", f"{KIT}/toolchain"] if self.is_program else [])

    def link(self):
        """The command that makes the program of what was built."""
        words = [f"{KIT}/bin/rattle-link", "--target", "x86_64-unknown-linux-gnu", "--toolchain", f"{KIT}/toolchain"]
        return words + ["-o", f"out/{self.name}", self.made, f"{KIT}/c/libos_c.a", f"{KIT}/c/liblibc_c.a"]


def crates():
    """The program's crates by name, each behind those that it uses."""
    listed = {}
    with open(f"{TOP}/crates.txt", encoding="utf-8") as file:
        for line in file:
            name, colon, uses = line.partition("#")[0].partition(":")
            if colon:
                listed[name.split()[0]] = uses.split()
    found = {}

    def reach(name):
        for use in listed[name]:
            if use in listed and use not in found:
                reach(use)
        found[name] = Crate(name, {use: found.get(use) for use in listed[name]})

    reach(PROGRAM)
    return found


def side_by_side():
    """How many crates are proved at once."""
    with open("/proc/meminfo", encoding="utf-8") as file:
        free = next(int(line.split()[1]) for line in file if line.startswith("MemAvailable:"))
    return max(1, min(len(os.sched_getaffinity(0)), free // SHARE))


class Build:
    """The crates that are to be proved, and how far that is."""

    def __init__(self, all_crates):
        self.all = all_crates
        self.done = {name for name, crate in all_crates.items() if crate.is_built()}
        self.runs, self.began, self.told = {}, time.monotonic(), 0
        users = {name: [it for it in all_crates.values() if name in it.uses] for name in all_crates}
        self.behind = {}
        for name, crate in reversed(all_crates.items()):
            self.behind[name] = crate.weight + max((self.behind[it.name] for it in users[name]), default=0)

    def prove(self, crate, jobs):
        """Proves and builds one crate by so many processors; what is said is kept beside it."""
        if not crate.is_program:
            shutil.rmtree(os.path.dirname(crate.made), ignore_errors=True)
        os.makedirs(os.path.dirname(crate.made), exist_ok=True)
        with open(crate.log, "w", encoding="utf-8") as log:
            for words in [crate.words(jobs)] + ([crate.link()] if crate.is_program else []):
                how = {"cwd": crate.folder, "stdin": subprocess.DEVNULL, "stdout": log, "stderr": subprocess.STDOUT}
                with subprocess.Popen(words, **how) as run:
                    self.runs[crate.name] = run
                if run.returncode:
                    return crate.name, False
        with open(crate.mark, "w", encoding="utf-8") as file:
            file.write(crate.sum)
        return crate.name, True

    def tell(self, ended):
        """Says how far it is: at a terminal in one line that is written anew, elsewhere in a line for each crate."""
        while not ended.wait(1):
            minutes = int(time.monotonic() - self.began) // 60
            text = f"fast: {len(self.done)} of {len(self.all)} crates proved, {minutes} minutes so far"
            if sys.stderr.isatty():
                line = f"{text}; at work on {', '.join(sorted(self.runs))}"[: shutil.get_terminal_size().columns - 1]
                print(f"\r\033[K{line}", end="", file=sys.stderr, flush=True)
            elif time.monotonic() - self.began > SILENT and len(self.done) != self.told:
                print(text, file=sys.stderr, flush=True)
                self.told = len(self.done)

    def run(self, at_once):
        """Proves all, and returns the crate that isn't proved, if there is one."""
        left = sorted((it for it in self.all.values() if it.name not in self.done), key=lambda it: -self.behind[it.name])
        with concurrent.futures.ThreadPoolExecutor(at_once) as pool:
            working = set()
            while left or working:
                ready = [it for it in left if all(name in self.done for name, use in it.uses.items() if use)]
                starts = ready[: at_once - len(working)]
                # those that are left idle help, which shortens the end, where each crate waits for the one before
                jobs = (at_once - len(working)) // max(1, len(starts))
                for crate in starts:
                    left.remove(crate)
                    working.add(pool.submit(self.prove, crate, jobs))
                ended, working = concurrent.futures.wait(working, return_when=concurrent.futures.FIRST_COMPLETED)
                for name, is_proved in [it.result() for it in ended]:
                    self.runs.pop(name)
                    if not is_proved:
                        self.stop()
                        return self.all[name]
                    self.done.add(name)
        return None

    def stop(self):
        """Ends what is still being proved; what it kept serves the next build."""
        for run in list(self.runs.values()):
            run.terminate()


def main():
    """Builds the program, alone in this checkout."""
    os.makedirs(f"{TOP}/crates/{PROGRAM}/out", exist_ok=True)
    with open(f"{TOP}/crates/{PROGRAM}/out/lock", "w", encoding="utf-8") as lock:
        fcntl.flock(lock, fcntl.LOCK_EX)
        began = time.time()
        build, ended = Build(crates()), threading.Event()
        count = len(build.all) - len(build.done)
        if count:
            print(f"fast: proves {count} of {len(build.all)} crates; all of them take about an hour", file=sys.stderr)
        teller = threading.Thread(target=build.tell, args=[ended], daemon=True)
        teller.start()
        try:
            failed = build.run(side_by_side())
        except KeyboardInterrupt:
            build.stop()
            raise SystemExit(130) from None
        finally:
            ended.set()
            teller.join()
            if sys.stderr.isatty():
                print("\r\033[K", end="", file=sys.stderr, flush=True)
        if failed:
            raise SystemExit(f"fast: {failed.name} isn't proved or built; what the prover said is in {os.path.relpath(failed.log)}")
        # (what is written meanwhile makes the program stale)
        os.utime(build.all[PROGRAM].mark, (began, began))


if __name__ == "__main__":
    main()
