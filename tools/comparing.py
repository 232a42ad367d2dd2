"""What the comparisons share: the independent implementation, the program, and cases run side by side."""
import argparse
import collections
import concurrent.futures
import functools
import importlib.machinery
import importlib.util
import multiprocessing
import os
import random
import re
import subprocess
import sys
import time

TOP = os.path.dirname(os.path.dirname(os.path.abspath(__file__)))
# how many seconds a comparison may take new cases, where it is bounded
SECONDS = "STX_SECONDS"
# how many cases are waited for at a time, for each processor
AHEAD = 2
# the seconds after which a run is killed
LONGEST = 60


def options_of(count, text):
    """The words of a comparison: how many cases, and the seed that they are made from."""
    parser = argparse.ArgumentParser(description=text)
    parser.add_argument("--count", type=int, default=count)
    parser.add_argument("--seed", type=int, default=1)
    return parser.parse_args()


def has_oracle(name):
    """Whether the variable STX_ORACLE names the folder of the independent implementation, which is then imported from."""
    if not os.environ.get("STX_ORACLE"):
        print("%s: skipped, STX_ORACLE isn't set" % name)
        return False
    folder = os.path.join(TOP, os.environ["STX_ORACLE"])
    if not os.path.isdir(folder):
        sys.exit("%s: STX_ORACLE names %s, which is no folder" % (name, folder))
    sys.path.insert(0, folder)
    sys.setrecursionlimit(100_000)
    return True


@functools.lru_cache
def program():
    """Where the built program stands. Where there is none of these sources, nothing is built, and the caller ends."""
    found = subprocess.run([os.path.join(TOP, "tools", "program")], stdout=subprocess.PIPE, text=True, check=False)
    return found.stdout.strip() if found.returncode == 0 else sys.exit(1)


def script(name):
    """Another script of this folder, as a module."""
    loader = importlib.machinery.SourceFileLoader(name.replace("-", "_"), os.path.join(TOP, "tools", name))
    module = importlib.util.module_from_spec(importlib.util.spec_from_loader(loader.name, loader))
    sys.dont_write_bytecode = True
    loader.exec_module(module)
    return module


def answer(words, data, cuts=()):
    """The status, output and report of the program for an input that is written in the pieces that the cuts make.

    Where it hasn't ended after a minute it is killed, and the report says so."""
    with subprocess.Popen(words, stdin=subprocess.PIPE, stdout=subprocess.PIPE, stderr=subprocess.PIPE) as run:
        try:
            last = 0
            for cut in cuts:
                run.stdin.write(data[last:cut])
                run.stdin.flush()
                last = cut
        except BrokenPipeError:
            last = len(data)
        try:
            out, report = run.communicate(data[last:], timeout=LONGEST)
        except subprocess.TimeoutExpired:
            run.kill()
            out, report = run.communicate()
            report += b"it hadn't ended after %d seconds" % LONGEST
    return run.returncode, out, report


def limits(seed, report):
    """The words for seven limits that a program is tried under: the usual ones, and no greater ones than it took under those."""
    rng = random.Random(seed)
    yield []
    took = re.match(rb"stx: steps (\d+) depth (\d+) cells (\d+)", report)
    for number, name in enumerate(("steps", "depth", "cells"), 1):
        most = int(took[number]) if took else 0
        for _ in range(2 if most > 1 else 0):
            yield ["--" + name, str(rng.randint(1, most))]


def seconds_to(moment):
    """How long it is up to a moment, or None where it never comes."""
    return None if moment == float("inf") else max(moment - time.monotonic(), 0)


def results(pool, differs, cases):
    """What each case comes to, in their order. Where there is a bound of time, no case but the first is begun or waited for past it."""
    ends = time.monotonic() + float(os.environ.get(SECONDS, "inf"))
    waiting, compared = collections.deque(), 0
    for case in cases:
        waiting.append(pool.submit(differs, case))
        if len(waiting) >= AHEAD * os.cpu_count():
            concurrent.futures.wait([waiting[0]], seconds_to(ends))
        while waiting and waiting[0].done():
            compared += 1
            yield waiting.popleft().result()
        if time.monotonic() > ends:
            break
    concurrent.futures.wait(waiting, seconds_to(ends))
    if waiting and not compared:
        concurrent.futures.wait([waiting[0]])
    yield from [one.result() for one in waiting if one.done()]


def left(pool):
    """Leaves the cases that haven't ended: those that wait aren't begun, and processes that run others are ended."""
    pool.shutdown(wait=False, cancel_futures=True)
    for process in multiprocessing.active_children():
        process.terminate()


def compare(name, cases, differs, workers=concurrent.futures.ThreadPoolExecutor):
    """Runs all cases that there is time for, prints the first differences, and gives the status."""
    failed = compared = 0
    with workers(os.cpu_count()) as pool:
        for found in results(pool, differs, cases):
            compared += 1
            if found:
                failed += 1
                if failed <= 20:
                    print(found)
        left(pool)
    return ended(name, compared - failed, failed)


def ended(name, passed, failed):
    """Prints the last line of a check, and gives its status: a check that tried nothing fails."""
    print("%s: %d passed, %d failed" % (name, passed, failed))
    return 0 if passed and not failed else 1
