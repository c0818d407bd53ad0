#!/usr/bin/env python3
"""Runs a program on a generated script, and prints requests a second and peak memory: run_script.py PROGRAM [REQUESTS [LOCATIONS]]"""
import os
import subprocess
import sys
import tempfile
import time

HERE = os.path.dirname(os.path.abspath(__file__))
ROUNDS = 5


def start(program, script):
    script.seek(0)
    return subprocess.Popen([program, 'run'], stdin=script, stdout=subprocess.DEVNULL)


def ended_well(child):
    if child.wait() != 0:
        sys.exit('the program ended with status %d' % child.returncode)


def seconds(program, script):
    """How long one run takes."""
    began = time.perf_counter()
    ended_well(start(program, script))
    return time.perf_counter() - began


def peak_memory(program, script):
    """The peak memory of one run in KiB, as far as it is seen while the program runs."""
    child = start(program, script)
    peak = 0
    while child.poll() is None:
        with open('/proc/%d/status' % child.pid) as status:
            for line in status:
                if line.startswith('VmHWM:'):
                    peak = max(peak, int(line.split()[1]))
        time.sleep(0.001)
    ended_well(child)
    return peak


def main():
    program, sizes = sys.argv[1], sys.argv[2:]
    requests = int(sizes[0]) if sizes else 200_000
    with tempfile.TemporaryFile() as script:
        subprocess.run([sys.executable, os.path.join(HERE, 'generate_script.py')] + sizes, stdout=script, check=True)
        best = min(seconds(program, script) for _ in range(ROUNDS))
        peak = peak_memory(program, script)
    print('%d requests in %.3f s: %d a second; peak memory %d KiB' % (requests, best, requests / best, peak))


main()
