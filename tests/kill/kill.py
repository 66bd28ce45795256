#!/usr/bin/env python3
"""Kills a served node while it raises its incarnation, and looks at the numbers that it hands out over all starts.

kill.py [STARTS]     200 starts at drawn moments, unless said otherwise, and one at each system call that the raise makes

A node is served over a folder of the machine's and is killed (SIGKILL) at a drawn moment of its start, half of the time before
it answers. Under `strace` it is then killed at its n-th open, write, sync and rename, for each n until it comes through. Whoever
asks a node learns its incarnation. Over all starts these numbers rise strictly, and the file holds a number at least as great as
each that was reported. It ends with 1 where that fails, where a start ends by itself, and where `strace` killed at no open, write,
sync or rename; it says what it did until then. Without `strace`, or where that may not trace, it does nothing. What this shows is the
order of the calls; that a machine loses power is another matter, which the proof speaks of.
"""
import collections
import contextlib
import json
import os
import random
import re
import shutil
import signal
import subprocess
import sys
import tempfile
import threading
import time

sys.path.insert(0, os.path.dirname(os.path.dirname(os.path.abspath(__file__))))
from served import ASK, DAY, Cluster, Segment, exchange, need, need_program, parser_of  # noqa: E402

# What the raise does, by calls of which a machine has one or some.
KINDS = {'open': ['openat'], 'write': ['write'], 'sync': ['fsync', 'fdatasync'], 'rename': ['rename', 'renameat', 'renameat2']}
MOST = 60  # Calls of one name that a start makes until it answers.


class Asker(threading.Thread):
    """Asks the node again and again for its incarnation, as a broker does, until it is stopped."""

    def __init__(self, port):
        super().__init__(daemon=True)
        self.port, self.found, self.is_over = port, None, False
        self.start()

    def run(self):
        while not self.is_over and self.found is None:
            try:
                _, body = exchange(self.port, 'GET', ASK, wait=1)
                self.found = json.loads(body)['counter']['hash']
            except (OSError, ValueError, IndexError):
                time.sleep(0.0005)


def number_in(folder):
    """The number that the file holds; None where there is no file."""
    try:
        with open(f'{folder}/n0/incarnation') as file:
            text = file.read()
    except FileNotFoundError:
        return None
    if not re.fullmatch(r'[1-9][0-9]*\n', text):
        raise SystemExit(f'the incarnation file holds {text!r}')
    return int(text)


def children(pid):
    try:
        with open(f'/proc/{pid}/task/{pid}/children') as file:
            return [int(it) for it in file.read().split()]
    except FileNotFoundError:
        return []


def start(cluster, delay, prefix=()):
    """Starts the node and kills it after so many seconds, or waits for its answer where there is none. What it reported.

    After a prefix it is the child of what it is started with, which may kill it too.
    """
    asker = Asker(cluster.nodes[0])
    process = subprocess.Popen([*prefix, *cluster.words], stdout=subprocess.DEVNULL, stderr=subprocess.PIPE)
    end = time.monotonic() + (30 if delay is None else delay)
    while time.monotonic() < end and process.poll() is None and not (delay is None and asker.found is not None):
        time.sleep(0)
    for pid in children(process.pid) if prefix else ():
        with contextlib.suppress(ProcessLookupError):
            os.kill(pid, signal.SIGKILL)
    process.kill()
    _, words = process.communicate()
    asker.is_over = True
    asker.join()
    if process.returncode != -signal.SIGKILL:
        raise SystemExit(f'a start ended by itself with {process.returncode}: {words.decode(errors="replace").strip()[:300]}')
    if delay is None and not prefix and asker.found is None:
        raise SystemExit('a node that nothing kills has not answered within 30 s')
    return asker.found


class Record:
    """The numbers reported so far, each above the one before."""

    def __init__(self, folder):
        self.folder, self.last, self.reported, self.starts = folder, 0, 0, 0

    def add(self, found, where):
        held = number_in(self.folder)
        if found is not None and found <= self.last:
            raise SystemExit(f'{where}: incarnation {found} was reported after {self.last}')
        if found is not None:
            self.last, self.reported = found, self.reported + 1
        if held is not None and held < self.last or held is None and self.last:
            raise SystemExit(f'{where}: the file holds {held}, and {self.last} was reported')
        self.starts += 1


def kill_at_moments(cluster, record, starts):
    draw, begun = random.Random(1), time.monotonic()
    record.add(start(cluster, None), 'the first start')
    spread = whole = time.monotonic() - begun
    for number in range(starts):
        delay = None if draw.random() < .1 else draw.random() * spread
        found = start(cluster, delay)
        record.add(found, f'start {number}')
        # Half of the starts are to end before the node answers, so near the raise: the moments are drawn from where that is.
        if delay is not None:
            spread = min(whole, spread * 1.1) if found is None else spread / 1.1


def kill_at_call(cluster, record, call):
    """How often the node was killed at a call of this name: at the first, the second and so on, until it comes through."""
    for count in range(1, MOST):
        # A name with a ? may be one that this machine does not have.
        prefix = ['strace', '-f', '-o', '/dev/null', '-e', f'trace=?{call}', '-e', f'inject=?{call}:signal=SIGKILL:when={count}']
        found = start(cluster, None, prefix)
        record.add(found, f'{call} {count}')
        if found is not None:
            return count - 1
    raise SystemExit(f'the node does not come through {MOST} calls of {call}')


def kill_at_calls(cluster, record, killed):
    """Counts in `killed` how often the node was killed at calls of each kind."""
    for kind, calls in KINDS.items():
        for call in calls:
            killed[kind] += kill_at_call(cluster, record, call)
            record.add(start(cluster, None), f'after {call}')
    never = [kind for kind in KINDS if not killed[kind]]
    if never:
        raise SystemExit(f'killed at no {", no ".join(never)}')


def need_to_trace():
    need('strace')
    traced = subprocess.run(['strace', '-o', '/dev/null', 'true'], capture_output=True, text=True, check=False)
    if traced.returncode:
        raise SystemExit(f'strace may not trace here: {traced.stderr.strip()[:300]}')


def main():
    parser = parser_of(__doc__)
    parser.add_argument('starts', nargs='?', type=int, default=200)
    starts = parser.parse_args().starts
    need_program()
    need_to_trace()
    folder = tempfile.mkdtemp(prefix='druid_cluster_kill_')
    cluster = Cluster(folder, [[Segment('w', 0, DAY, 'v', 0, 1, 0, ['d'], ['m'], [(1000, ['x'], [5])])]])
    record, killed = Record(folder), collections.Counter()
    try:
        kill_at_moments(cluster, record, starts)
        kill_at_calls(cluster, record, killed)
        return 0
    finally:
        print(f'{record.starts} starts, killed at drawn moments and', ', '.join(f'{killed[it]} times at a call of {it}' for it in KINDS) + ';',
              f'{record.reported} reported their incarnation, and the last is {record.last}', flush=True)
        shutil.rmtree(folder, ignore_errors=True)


if __name__ == '__main__':
    sys.exit(main())
