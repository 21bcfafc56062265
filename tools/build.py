#!/usr/bin/env python3
"""Builds the program from crates.txt, as many crates at a time as there are processors.

    python3 tools/build.py

`rt run` would prove the libraries below the program one after the other, and two runs of rt in one checkout wait for each
other where their crates stand on a common one. So each library is proved in a room of its own: a copy of the sources with
the libraries that it stands on, from which the built library is taken back. One is begun as soon as all below it are
built, of these the one with the longest way to the program first; the program comes last, in place. Those that begin share
the processors that no other crate works on, and the one with the longest way has at least half of all, since the others
wait for it. A library is checked, and then built over what its check kept: to build it from nothing takes many times as
long. On standard error stands how far this is, and how long it has taken. Where a crate fails, what its command wrote
follows, and the status is 1.
"""
import contextlib
import os
import shutil
import signal
import subprocess
import sys
import tempfile
import threading
import time

TOP = os.path.dirname(os.path.dirname(os.path.abspath(__file__)))
PROGRAM = "widl_cli"


def libraries():
    """Each crate of crates.txt with the crates of the repository that it stands on."""
    found = {}
    with open(os.path.join(TOP, "crates.txt"), encoding="utf-8") as file:
        for line in file:
            name, colon, below = line.split("#")[0].partition(":")
            if colon:
                found[name.split()[0]] = below.split()
    return {name: [it for it in below if it in found] for name, below in found.items()}


def reached(below, name):
    """The crate and all that it stands on."""
    return {name}.union(*(reached(below, it) for it in below[name]))


def size(name):
    """The bytes of a crate's sources: a measure of its time."""
    folders = (os.walk(os.path.join(TOP, "crates", name, part)) for part in ("src", "specs", "proofs"))
    return sum(os.path.getsize(os.path.join(at, it)) for walk in folders for at, _, files in walk for it in files)


def ways_up(below):
    """For each crate the size of the longest way from it to the program."""
    ways = {}
    for name in sorted(below, key=lambda it: -len(reached(below, it))):
        above = [ways[it] for it in below if name in below[it]]
        ways[name] = size(name) + max(above, default=0)
    return ways


def library_of(top, name):
    return os.path.join(top, "crates", name, "out", "rlib")


def link_or_copy(one, other):
    """A second name for a file that nobody changes; a copy where the disk is another."""
    try:
        os.link(one, other)
    except OSError:
        shutil.copy2(one, other)


def make_room(room, name, below):
    """A copy of the sources, with the libraries that the crate stands on."""
    for part in ("crates.txt", "HANDLES"):
        shutil.copy(os.path.join(TOP, part), room)
    sources = {"ignore": shutil.ignore_patterns("out"), "copy_function": link_or_copy}
    shutil.copytree(os.path.join(TOP, "crates"), os.path.join(room, "crates"), **sources)
    for it in below - {name}:
        shutil.copytree(library_of(TOP, it), library_of(room, it), symlinks=True, copy_function=link_or_copy)


def take_back(room, name):
    """The built library goes where the crates above look for it."""
    to = library_of(TOP, name)
    shutil.rmtree(to, ignore_errors=True)
    shutil.copytree(library_of(room, name), to, symlinks=True, copy_function=link_or_copy)


def clock(seconds):
    """A time as minutes and seconds."""
    return f"{int(seconds) // 60}:{int(seconds) % 60:02}"


class Build:
    """The crates that wait, those that run with their process and their jobs, and those that are built."""

    def __init__(self, below, most):
        self.below, self.total, self.most, self.begun = below, len(below), most, time.monotonic()
        self.ways = ways_up(below)
        self.waiting = sorted(below, key=lambda it: -self.ways[it])
        self.running, self.jobs, self.built, self.failed = {}, {}, set(), None
        self.changed = threading.Condition()

    def say(self, what):
        print(f"widl: {clock(time.monotonic() - self.begun)}: {what}", file=sys.stderr, flush=True)

    def start(self, name, jobs):
        """Begins one crate, and says so."""
        log = tempfile.TemporaryFile("w+", errors="replace")
        if name == PROGRAM:
            command, room, top = "rt run -- --version", None, TOP
        else:
            command, room = f"rt check --jobs {jobs} && rt lib --jobs {jobs}", tempfile.mkdtemp(prefix="widl-build-")
            make_room(room, name, reached(self.below, name))
            top = room
        folder = os.path.join(top, "crates", name)
        ends = {"stdin": subprocess.DEVNULL, "stdout": log, "stderr": subprocess.STDOUT}
        process = subprocess.Popen(["sh", "-c", command], cwd=folder, start_new_session=True, **ends)
        self.waiting.remove(name)
        self.running[name], self.jobs[name] = process, jobs
        self.say(f"proving {name}")
        threading.Thread(target=self.await_end, args=(name, process, log, room)).start()

    def start_ready(self):
        """Begins as many of the crates whose lower ones are built as there are idle processors, and shares these among them."""
        idle = self.most - sum(self.jobs[it] for it in self.running)
        ready = [it for it in self.waiting if self.built.issuperset(self.below[it])]
        longest = max((self.ways[it] for it in [*ready, *self.running]), default=0)
        for place, name in enumerate(ready):
            leads = self.ways[name] == longest
            if idle <= 0 and not leads:
                break
            share = idle // (len(ready) - place)
            jobs = max(1, share, (self.most + 1) // 2 if leads else 0)
            self.start(name, min(jobs, self.most))
            idle -= jobs

    def await_end(self, name, process, log, room):
        """Waits for one crate; where it is the first that fails, the others are ended."""
        status = process.wait()
        if room is not None:
            if status == 0:
                take_back(room, name)
            shutil.rmtree(room, ignore_errors=True)
        with self.changed:
            del self.running[name]
            if status == 0:
                self.built.add(name)
                self.say(f"{name} is proved, {len(self.built)} of {self.total}")
            elif self.failed is None:
                log.seek(0)
                self.failed = f"{log.read()}widl: {name} isn't built"
                self.stop()
            log.close()
            self.changed.notify_all()

    def stop(self):
        """Ends what is running: each command has a group of processes of its own."""
        for process in self.running.values():
            with contextlib.suppress(ProcessLookupError):
                os.killpg(process.pid, signal.SIGTERM)

    def run(self):
        """Builds all; what failed, or None."""
        with self.changed:
            while self.running or (self.waiting and self.failed is None):
                if self.failed is None:
                    self.start_ready()
                self.changed.wait()
        return self.failed


def main():
    all_crates = libraries()
    needed = reached(all_crates, PROGRAM)
    most = len(os.sched_getaffinity(0))
    build = Build({name: below for name, below in all_crates.items() if name in needed}, most)
    try:
        failed = build.run()
    except KeyboardInterrupt:
        build.stop()
        sys.exit("widl: the build was interrupted; the next one goes on from here")
    if failed is not None:
        sys.exit(failed)


if __name__ == "__main__":
    main()
