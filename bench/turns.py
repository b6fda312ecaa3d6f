"""Runs of programs in turns, so that what else the machine does weighs on all of them alike."""
import os
import re
import statistics
import subprocess
import sys
import time
from dataclasses import dataclass


@dataclass
class Run:
    used: float      # seconds of the processor, and of these the system's
    system: float
    clock: float
    room: float      # MB at the peak
    writes: int
    reads: int
    beside: float = 1.0  # of seconds on the clock, the middle of the ratios to the last program's run of the same turn


def write(path, make):
    """Writes the text that `make` makes to a file, in a process of its own: what this one holds counts as a child's memory too. Gives its lines."""
    child = os.fork()
    if child == 0:
        with open(path, 'w') as file:
            file.write(make())
        os._exit(0)
    if os.waitpid(child, 0)[1]:
        sys.exit(f'{path} could not be written')
    with open(path, 'rb') as file:
        return sum(1 for _ in file)


def once(words, to, folder):
    """One run whose output goes `to` null, to a file or to a pipe."""
    out = {'null': subprocess.DEVNULL, 'pipe': subprocess.PIPE}.get(to) or open(f'{folder}/out', 'wb')
    begin = time.monotonic()
    child = subprocess.Popen(words, stdout=out, stderr=subprocess.DEVNULL)
    if to == 'pipe':
        while os.read(child.stdout.fileno(), 1 << 20):
            pass
        child.stdout.close()
    elif to == 'file':
        out.close()
    os.waitid(os.P_PID, child.pid, os.WEXITED | os.WNOWAIT)
    clock = time.monotonic() - begin
    with open(f'/proc/{child.pid}/io') as file:
        calls = dict(line.split(': ') for line in file.read().splitlines())
    _, status, usage = os.wait4(child.pid, 0)
    child.returncode = os.waitstatus_to_exitcode(status)
    if child.returncode:
        sys.exit(f'{" ".join(words)} ended with {child.returncode}')
    return Run(usage.ru_utime + usage.ru_stime, usage.ru_stime, clock, usage.ru_maxrss / 1000, int(calls['syscw']), int(calls['syscr']))


def best(all_words, to, folder, turns):
    """Of each of these programs the least of each figure, over so many turns; fewer where one takes more than ten seconds. A machine that is now
    fast, now slow would mix the least of one with that of another; so ratios are taken turn by turn."""
    found = [[] for _ in all_words]
    for _ in range(turns):
        for runs, words in zip(found, all_words):
            runs.append(once(words, to, folder))
        if max(runs[-1].clock for runs in found) > 10:
            break
    beside = [statistics.median(run.clock / last.clock for run, last in zip(runs, found[-1])) for runs in found]
    figures = [field for field in Run.__dataclass_fields__ if field != 'beside']
    return [Run(*(min(getattr(run, field) for run in runs) for field in figures), ratio) for runs, ratio in zip(found, beside)]


def instructions(words):
    """Instructions of the processor, counted by valgrind."""
    counted = subprocess.run(['valgrind', '--tool=callgrind', '--callgrind-out-file=/dev/null', *words], stdout=subprocess.DEVNULL,
                             stderr=subprocess.PIPE, text=True)
    return int(re.search(r'Collected : (\d+)', counted.stderr)[1])
