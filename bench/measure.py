#!/usr/bin/env python3
"""Measure the wall-clock time and the peak resident memory of a command.

Usage: measure.py RUNS DOCUMENT COMMAND [ARGUMENT]...

Runs the command RUNS times with DOCUMENT as its input and its output thrown
away. Prints the least time in seconds and the greatest peak in KiB, or exits
with status 1 when the command fails.
"""

import ctypes
import os
import signal
import subprocess
import sys
import time

PR_SET_CHILD_SUBREAPER = 36

# What a process holds before its exec counts towards its peak, so a command
# started by Python itself would never show less than the size of Python. A
# shell is small enough: it forks the command and ends, which leaves the command
# to this process, its subreaper. The command waits at the gate, a pipe, until
# then, so none of this is timed.
LAUNCHER = """
gate=$1 document=$2 output=$3
shift 3
{ read -r opened <"$gate"; exec "$@" <"$document" >"$output"; } &
echo $!
"""


class CommandFailed(Exception):
    pass


def run(command, document, output=os.devnull, pieces=None):
    """Run a command once; return its seconds and its peak in KiB."""
    seconds, usage = used(command, document, output, pieces)
    return seconds, usage.ru_maxrss


def used(command, document, output=os.devnull, pieces=None):
    """Run a command once; return its seconds and what it used of the machine.

    With pieces, the input is a pipe which gets each piece in a write of its
    own, and document is not used.
    """
    waiting, gate = os.pipe()
    inherited = [waiting]
    if pieces is not None:
        source, sink = os.pipe()
        inherited.append(source)
        document = f"/dev/fd/{source}"
    process = launch([f"/dev/fd/{waiting}", document, output, *command], inherited)
    for descriptor in inherited:
        os.close(descriptor)
    try:
        start = time.perf_counter()
        os.close(gate)
        all_read = pieces is None or feed(sink, pieces)
        _, status, usage = os.wait4(process, 0)
        seconds = time.perf_counter() - start
    except BaseException:
        os.kill(process, signal.SIGKILL)
        raise
    code = os.waitstatus_to_exitcode(status)
    if code != 0:
        raise CommandFailed(f"{command[0]} ended with status {code}")
    if not all_read:
        raise CommandFailed(f"{command[0]} ended before its input")
    return seconds, usage


def launch(arguments, inherited):
    """Start the launcher; return the process it leaves behind at the gate."""
    if ctypes.CDLL(None).prctl(PR_SET_CHILD_SUBREAPER, 1, 0, 0, 0) != 0:
        raise OSError("prctl(PR_SET_CHILD_SUBREAPER) is refused")
    launcher = subprocess.Popen(
        ["/bin/sh", "-c", LAUNCHER, "sh", *arguments],
        stdin=subprocess.DEVNULL,
        stdout=subprocess.PIPE,
        pass_fds=inherited,
    )
    with launcher:
        return int(launcher.stdout.readline())


def feed(sink, pieces):
    """Write the pieces; tell whether the reader stayed for all of them."""
    try:
        for piece in pieces:
            os.write(sink, piece)
    except BrokenPipeError:
        return False
    finally:
        os.close(sink)
    return True


def best(runs, *arguments, **options):
    """The least seconds and the greatest peak of several runs."""
    figures = [run(*arguments, **options) for _ in range(runs)]
    return min(seconds for seconds, _ in figures), max(peak for _, peak in figures)


def by_turns(rounds, runs):
    """Run each command once a round; return for each its least user time and its greatest peak.

    Each of runs is a command and its document. What else the machine does then
    falls on all of them alike.
    """
    seconds = {name: [] for name in runs}
    peaks = dict.fromkeys(runs, 0)
    for _ in range(rounds):
        for name, (command, document) in runs.items():
            _, usage = used(command, document)
            seconds[name].append(usage.ru_utime)
            peaks[name] = max(peaks[name], usage.ru_maxrss)
    return {name: (min(seconds[name]), peaks[name]) for name in runs}


def main(arguments):
    if len(arguments) < 3 or not arguments[0].isdecimal() or int(arguments[0]) < 1:
        sys.exit("usage: measure.py RUNS DOCUMENT COMMAND [ARGUMENT]...")
    try:
        seconds, peak = best(int(arguments[0]), arguments[2:], arguments[1])
    except (CommandFailed, OSError) as error:
        sys.exit(f"measure.py: {error}")
    print(f"{seconds:.6f} {peak}")


if __name__ == "__main__":
    main(sys.argv[1:])
