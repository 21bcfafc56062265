"""Runs of the program `widl_bench`, for the scripts beside this one.

Times are those of the processor (user and system). Memory is counted by the pages that the program touches. The peak of a
child that the system tells would not do: it counts this program, from which the child was split off.
"""
import mmap
import os
import subprocess
import sys

PROGRAM = "crates/widl_bench/out/widl_bench"


def run(words):
    """The seconds of one run, and the bytes of the pages that it touches."""
    child = subprocess.Popen([PROGRAM, *map(str, words)], stdout=subprocess.PIPE)
    child.stdout.read()
    _, status, usage = os.wait4(child.pid, 0)
    child.returncode = status
    if status != 0:
        sys.exit(f"{PROGRAM} failed on {words[:3]}")
    return usage.ru_utime + usage.ru_stime, usage.ru_minflt * mmap.PAGESIZE


def least(words, runs):
    """The least seconds and the least bytes of some runs."""
    measured = [run(words) for _ in range(runs)]
    return min(m[0] for m in measured), min(m[1] for m in measured)
