#!/usr/bin/env python3
"""Runs a command ten times, or as often as --runs says, and prints its status, the least processor and wall seconds, and the most memory."""
import os
import subprocess
import sys
import time


def run(command):
    start = time.monotonic()
    child = subprocess.Popen(command, stdout=subprocess.DEVNULL)
    _, status, used = os.wait4(child.pid, 0)
    wall = time.monotonic() - start
    return os.waitstatus_to_exitcode(status), used.ru_utime + used.ru_stime, wall, used.ru_maxrss


words = sys.argv[1:]
runs = 10
if words[:1] == ["--runs"]:
    runs, words = int(words[1]), words[2:]
results = [run(words) for _ in range(runs)]
name = " ".join([os.path.basename(words[0]), *words[1:]])
print(f"{name}: status {results[-1][0]}, {min(r[1] for r in results):.3f} s of processor, "
      f"{min(r[2] for r in results):.3f} s, {max(r[3] for r in results) / 1024:.0f} MB")
