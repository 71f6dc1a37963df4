#!/usr/bin/env python3
"""Runs the gate, and prints what it cost: processor seconds of proofs, tests and edits, a crate a row.

    bench/gate.py            runs `rt ci` at the top, with its output passed through
    bench/gate.py --pid PID  watches a gate that runs already, until it ends

It looks at the processes below the gate twice a second. What a process used after the last look is
missing, which is less than half a second each. It needs Linux, since it reads /proc.
"""
import os
import subprocess
import sys
import time

TOP = os.path.dirname(os.path.dirname(os.path.abspath(__file__)))
TICKS = os.sysconf('SC_CLK_TCK')
PARTS = ['proofs', 'tests', 'edits']


def text_of(pid, name):
    with open('/proc/%s/%s' % (pid, name), 'rb') as f:
        return f.read().decode('utf-8', 'replace')


def processes():
    """Each process: its parent, when it began, and the processor seconds that it used."""
    found = {}
    for pid in filter(str.isdigit, os.listdir('/proc')):
        try:
            fields = text_of(pid, 'stat').rpartition(')')[2].split()
        except OSError:
            continue
        found[int(pid)] = (int(fields[1]), fields[19], (int(fields[11]) + int(fields[12])) / TICKS)
    return found


def is_below(pid, top, found):
    """Whether a process is this one or stands below it."""
    while pid in found and pid != top:
        pid = found[pid][0]
    return pid == top


def work_of(pid):
    """The crate and the part of the gate that a prover's process works for."""
    try:
        words = text_of(pid, 'cmdline').split('\0')
        folder = os.readlink('/proc/%d/cwd' % pid)
    except OSError:
        return None
    if '--crate-name' not in words:
        return None
    crate = words[words.index('--crate-name') + 1]
    if os.path.basename(folder).startswith('rt-edit'):
        return crate, 'edits'
    return crate, 'tests' if '--test' in words else 'proofs'


class Watch:
    """What the processes below a gate used."""

    def __init__(self, top):
        self.top, self.used, self.works = top, {}, {}

    def look(self):
        found = processes()
        for pid in found:
            if is_below(pid, self.top, found):
                key = (pid, found[pid][1])
                if key not in self.works:
                    self.works[key] = work_of(pid)
                if self.works[key]:
                    self.used[key] = found[pid][2]
        return self.top in found

    def table(self):
        sums = {}
        for key, seconds in self.used.items():
            crate, part = self.works[key]
            sums.setdefault(crate, dict.fromkeys(PARTS, 0.0))[part] += seconds
        return sums


def edits_of(crate):
    folder = os.path.join(TOP, 'crates', crate, 'must-fail')
    return len([f for f in os.listdir(folder) if f.endswith('.edit')]) if os.path.isdir(folder) else 0


def print_table(sums, wall):
    print('| crate | proofs | tests | edits | number of edits |')
    print('|---|---|---|---|---|')
    whole = dict.fromkeys(PARTS, 0.0)
    for crate in sorted(sums, key=lambda c: -sum(sums[c].values())):
        print('| %s | %s | %d |' % (crate, ' | '.join('%.0f' % sums[crate][p] for p in PARTS), edits_of(crate)))
        for part in PARTS:
            whole[part] += sums[crate][part]
    total = sum(whole.values()) or 1.0
    print('| all, processor seconds | %s | |' % ' | '.join('%.0f' % whole[p] for p in PARTS))
    print('| share | %s | |' % ' | '.join('%.0f %%' % (100 * whole[p] / total) for p in PARTS))
    print('\n%.1f minutes by the clock, %d processors.' % (wall / 60, os.cpu_count()))


def watch(watched, is_over):
    while watched.look() and not is_over():
        time.sleep(0.5)


def main():
    begun = time.time()
    if sys.argv[1:2] == ['--pid']:
        watched = Watch(int(sys.argv[2]))
        watch(watched, lambda: False)
        status = 0
    else:
        gate = subprocess.Popen(['rt', 'ci'] + sys.argv[1:], cwd=TOP)
        watched = Watch(gate.pid)
        watch(watched, lambda: gate.poll() is not None)
        status = gate.wait()
    print_table(watched.table(), time.time() - begun)
    return status


if __name__ == '__main__':
    sys.exit(main())
