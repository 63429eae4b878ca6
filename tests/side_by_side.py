"""Runs cases side by side, each in a process of its own, for the programs beside this one."""

import multiprocessing
import multiprocessing.connection
import signal
import sys

import serving
from serving import program, want

PROCESSES = multiprocessing.get_context("fork")

# How many cases run at a time, and how long one may take, in seconds.
AT_ONCE = 8
BOUND = 300


def alone(act, rxline):
    """Runs a case in a process of its own, and ends it, with the server that it has, where it takes too long."""
    serving.NAME = f"{serving.NAME}: {act.__name__}"
    signal.signal(signal.SIGALRM, lambda *_: want(f"that it takes at most {BOUND} s", False, True))
    signal.alarm(BOUND)
    act(rxline)


def run_side_by_side(acts, rxline):
    """Returns the names of those that failed."""
    failed, running = [], []
    for act in acts:
        process = PROCESSES.Process(target=alone, args=(act, rxline), name=act.__name__)
        process.start()
        running.append(process)
        while len(running) >= AT_ONCE:
            multiprocessing.connection.wait([each.sentinel for each in running])
            over = [each for each in running if each.exitcode is not None]
            failed += [each.name for each in over if each.exitcode]
            running = [each for each in running if each not in over]
    for process in running:
        process.join()
    return failed + [each.name for each in running if each.exitcode]


def main(cases):
    """Runs those of these cases that the command line names behind the program's path, or all."""
    words = sys.argv[1:]
    rxline = program(words[:1])
    named = words[1:]
    acts = [act for act in cases if not named or act.__name__ in named]
    want("how many of those named there are", len(acts), len(named) or len(cases))
    failed = run_side_by_side(acts, rxline)
    want("cases that failed", ", ".join(failed), "")
    print(f"{serving.NAME}: {len(acts)} cases held")
