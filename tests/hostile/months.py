#!/usr/bin/env python3
"""Lets a cluster go on under clients, lawful and not, while segment files come and go, and looks at what it uses.

months.py [SECONDS]     60 unless said otherwise; 3,600 are as many turns and looks as a cluster with `every` 500 makes in four days

Two nodes look at their folders each 20 milliseconds, and a broker asks them each 5. A version of half a day comes and goes; three
clients ask for the count of the day, whose answers have to be those of one version, or say what is missing; another connects and says
nothing, sends half a request, posts 20 MB or a file that is no segment. After a tenth of the time, in which memory warms up, and at
the end, no client being there, threads and open files have to be the same, and memory at most 4 MiB more (which a program with checks
of memory need not keep). It ends with 1 where that fails.
"""
import collections
import os
import random
import shutil
import socket
import sys
import tempfile
import threading
import time

TESTS = os.path.dirname(os.path.dirname(os.path.abspath(__file__)))
sys.path[:0] = [TESTS, os.path.join(TESTS, 'kill')]
from live import NEW, OF_NEW, OF_OLD, OLD, Mover, keep_asking, wait_for  # noqa: E402
from served import Cluster, has_checks, need_program, parser_of, write_segments  # noqa: E402

CLIENTS, MORE = 3, 4_096  # KiB
HALF = b'POST /druid/v2 HTTP/1.1\r\nContent-Length: 50\r\n\r\n{'
LARGE = b'POST /druid/v2 HTTP/1.1\r\nContent-Length: 20000000\r\n\r\n' + b' ' * 20_000_000


def misbehave(cluster, folder, over):
    """Clients that do what they should not, and a file that is no segment, until the time is over."""
    draw, silent, odd = random.Random(1), [], f'{folder}/n0/odd.seg'
    while not over.is_set():
        kind = draw.randrange(4)
        try:
            stream = socket.create_connection(('127.0.0.1', draw.choice([cluster.broker, *cluster.nodes])), timeout=5)
            if kind == 0:
                silent.append(stream)
            else:
                with stream:
                    stream.sendall({1: HALF, 2: b'\r\n' * 9_000, 3: LARGE if draw.random() < .1 else HALF}[kind])
                    stream.recv(100) if kind > 1 else None
        except OSError:
            pass
        # More of them than a third of the workers would keep the others from being answered.
        while len(silent) > 1:
            silent.pop(0).close()
        with open(odd + '.part', 'wb') as file:
            file.write(b'DSG1')
        os.replace(odd + '.part', odd)
        time.sleep(.02)
        os.remove(odd)
    for it in silent:
        it.close()


def lives_on(cluster, folder, seconds, part, seen):
    """Moves a file under clients for so long. What the program uses once they are gone."""
    over, mover = threading.Event(), Mover(folder, f'part {part}')
    threads = [threading.Thread(target=keep_asking, args=(cluster, seen, over), daemon=True) for _ in range(CLIENTS)]
    threads.append(threading.Thread(target=misbehave, args=(cluster, folder, over), daemon=True))
    for it in threads:
        it.start()
    time.sleep(seconds)
    over.set()
    for it in threads:
        it.join()
    wait_for(cluster, OF_NEW if mover.ends() else OF_OLD, within=60)
    # A turn or a look may be under way at any moment, with a socket or a file open.
    uses = []
    for _ in range(100):
        time.sleep(.02)
        uses.append(cluster.uses())
    return [min(it) for it in zip(*uses)]


def main():
    parser = parser_of(__doc__)
    parser.add_argument('seconds', nargs='?', type=int, default=60)
    seconds = parser.parse_args().seconds
    need_program()
    folder, seen = tempfile.mkdtemp(prefix='druid_cluster_months_'), collections.Counter()
    cluster = Cluster(folder, [[OLD], []], workers=4, broker_workers=8, every=5, watch=20)
    write_segments(f'{folder}/n1', [NEW])
    try:
        cluster.start().stands()
        before = lives_on(cluster, folder, seconds / 10, 0, seen)
        after = lives_on(cluster, folder, seconds, 1, seen)
        print(f'{seconds} s; answers: {seen[OF_OLD]:,} of v1, {seen[OF_NEW]:,} of v2, {seen["missing"]:,} with v2 missing')
        print(f'memory {before[0]:,} KiB, then {after[0]:,}; threads {before[1]}, {after[1]}; open files {before[2]}, {after[2]}')
        others = set(seen) - {OF_OLD, OF_NEW, 'missing', None}
        same = {'answers': not others and seen[OF_OLD] and seen[OF_NEW], 'memory': has_checks() or after[0] <= before[0] + MORE,
                'threads': after[1] == before[1], 'open files': after[2] == before[2]}
        changed = [what for what, is_same in same.items() if not is_same]
        if changed:
            print('not as it should be:', ', '.join(changed), others or '')
        return 1 if changed else 0
    finally:
        cluster.ends()
        shutil.rmtree(folder, ignore_errors=True)


if __name__ == '__main__':
    sys.exit(main())
