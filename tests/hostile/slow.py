#!/usr/bin/env python3
"""Slow clients of a served broker and its node with front threads, while four clients ask: no query is late, and nothing grows.

slow.py [SECONDS] [CLIENTS] [FRONT]     20 seconds, 200 slow clients and 64 front threads of each server unless said otherwise; 3600 2000 is an hour

Of the slow clients of each server four in nine keep silent, four in nine send a byte now and then, and one in nine asks and reads nothing
of the answer; whose connection is closed connects again. Four clients ask the broker and the node in turn all that time. It ends with 1
where a query has another answer than at the start or none; where one takes longer than twice the longest that it took alone, and than a
second; where one is closed without an answer; or where the program has at the end, after the slow clients are gone, a thread more than after its first tenth, or another open
file; or where it had at any time more open files than docs/FORMATS.md lets it have: two for each front thread, and one for the connection
that waits, beside those that it stands with; or more memory than it stood with and 32 MiB and 16 KiB and a stack for each front thread.

Where a server has more slow clients than front threads they hold all of these all the time, and each connection that is taken ends the
one that waits longest for its client. Then how late queries are, how many were closed before they had come whole and were asked once
more, and how many the broker answered as missing since the node had closed its exchange, is printed and not judged.
"""
import json
import os
import shutil
import socket
import sys
import tempfile
import threading
import time

sys.path.insert(0, os.path.dirname(os.path.dirname(os.path.abspath(__file__))))
from served import DAY, QUERY, Cluster, Segment, exchange, need_program, parser_of, request  # noqa: E402

ASKING, FLOOR, SPARE, LAST = 4, 1.0, 8, 30
THREAD_KIB = 32 * 1024 + 16 + 256   # a request, an answer and the pages of a stack
QUERY_TEXT = json.dumps({'queryType': 'groupBy', 'dataSource': 'w', 'granularity': 'hour', 'intervals': '1970-01-01/1970-01-02', 'dimensions': ['d'],
                         'aggregations': [{'type': 'count', 'name': 'n'}]}).encode()


def segments():
    rows = [(number * 1000 % DAY, [f'{number % 997:0100}'], [number]) for number in range(20_000)]
    return [[Segment('w', 0, DAY, 'v1', 0, 1, 0, ['d'], ['m'], rows)]]


class Slow:
    """The slow clients of one server."""

    def __init__(self, port, count):
        self.port = port
        self.streams = {}
        kinds = ['silent'] * 4 + ['drips'] * 4 + ['deaf']
        for number in range(count):
            self.connect(kinds[number % len(kinds)])

    def connect(self, kind):
        stream = socket.socket()
        stream.setsockopt(socket.SOL_SOCKET, socket.SO_RCVBUF, 4096)
        stream.setblocking(False)
        stream.connect_ex(('127.0.0.1', self.port))
        self.streams[stream] = [kind, False]

    def turn(self):
        """Each client does what its kind does; whose connection is closed connects again."""
        for stream, (kind, asked) in list(self.streams.items()):
            try:
                if kind == 'drips':
                    stream.send(b'x' if asked else b'POST /')
                elif kind == 'deaf' and not asked:
                    stream.send(request('POST', QUERY, QUERY_TEXT))
                elif kind == 'silent' and stream.recv(1, socket.MSG_PEEK) == b'':
                    raise ConnectionResetError
                self.streams[stream][1] = True
            except (BlockingIOError, InterruptedError):
                pass
            except OSError as fault:
                if fault.errno in (107, 115):   # the connection is not made yet
                    continue
                del self.streams[stream]
                stream.close()
                self.connect(kind)

    def end(self):
        for stream in self.streams:
            stream.close()


class Asking(threading.Thread):
    """A client that asks until it is told to end; what it saw."""

    def __init__(self, cluster, wanted, over, crowded):
        super().__init__()
        self.cluster, self.wanted, self.over, self.crowded = cluster, wanted, over, crowded
        self.slowest, self.count, self.closed, self.missing, self.faults = 0.0, 0, 0, 0, []

    def run(self):
        while not self.over.is_set():
            start = time.monotonic()
            try:
                found = answers(self.cluster)
            except (ConnectionError, IndexError):
                self.closed += 1
                continue
            except (OSError, ValueError) as fault:
                found = repr(fault)
            self.slowest = max(self.slowest, (time.monotonic() - start) / 2)
            self.count += 1
            if self.crowded and is_missing(found):
                self.missing += 1
            elif found != self.wanted:
                self.faults.append(str(found)[:200])
                return


def is_missing(found):
    """Whether the broker lists the node's segment as missing, and the node answers."""
    return isinstance(found, tuple) and found[0][0] == 503 and b'SegmentsMissing' in found[0][1] and found[1][0] == 200


def answers(cluster):
    return exchange(cluster.broker, 'POST', QUERY, QUERY_TEXT, 20), exchange(cluster.nodes[0], 'GET', '/status/health', b'', 20)


def ask_for(cluster, wanted, seconds, each=lambda: None, crowded=False):
    """Four clients ask for so long: the slowest query, how many there were, how many were closed, or missing, and what was wrong."""
    over = threading.Event()
    clients = [Asking(cluster, wanted, over, crowded) for _ in range(ASKING)]
    for it in clients:
        it.start()
    end = time.monotonic() + seconds
    while time.monotonic() < end and all(it.is_alive() for it in clients):
        each()
        time.sleep(0.05)
    over.set()
    for it in clients:
        it.join()
    return (max(it.slowest for it in clients), sum(it.count for it in clients), sum(it.closed for it in clients),
            sum(it.missing for it in clients), [fault for it in clients for fault in it.faults])


class Greatest:
    """The most that a program used while it was looked at."""

    def __init__(self, cluster):
        self.cluster, self.uses = cluster, cluster.uses()

    def look(self):
        self.uses = tuple(map(max, self.uses, self.cluster.uses()))


def judged(cluster, seconds, clients, front):
    """What is wrong, and what was seen."""
    try:
        wanted = answers(cluster)
    except (OSError, IndexError, ValueError) as fault:
        return [f'no answer at the start, before any slow client: {fault!r}'], 'nothing'
    alone, _, _, _, wrong = ask_for(cluster, wanted, min(5, seconds))
    stood = cluster.uses()
    greatest = Greatest(cluster)
    slow = [Slow(port, clients // 2) for port in (cluster.broker, cluster.nodes[0])]

    def each():
        for it in slow:
            it.turn()
        greatest.look()

    crowded = clients // 2 > front
    warm = ask_for(cluster, wanted, seconds / 10, each, crowded)
    begun = cluster.uses()
    late, count, closed, missing, faults = ask_for(cluster, wanted, seconds, each, crowded)
    for it in slow:
        it.end()
    ended = cluster.uses()
    for _ in range(LAST):   # Connections that wait to be taken, and are gone.
        if ended[2] <= stood[2] + SPARE:
            break
        time.sleep(1)
        ended = cluster.uses()
    most, threads = greatest.uses, 2 * front
    wrong += warm[4] + faults
    late, closed, missing = max(late, warm[0]), closed + warm[2], missing + warm[3]
    if not crowded and late > max(2 * alone, FLOOR):
        wrong.append(f'a query took {late:.2f} s, and {alone:.2f} s alone')
    if not crowded and closed:
        wrong.append(f'{closed} queries were closed without an answer')
    if ended[1] != begun[1] or ended[2] > stood[2] + SPARE:
        wrong.append(f'{begun[1]} and then {ended[1]} threads, {stood[2]} and then {ended[2]} open files')
    if most[2] > stood[2] + 2 * threads + 2 + SPARE + 4 * ASKING:
        wrong.append(f'{most[2]} open files, and {stood[2]} at the start')
    if most[0] > stood[0] + threads * THREAD_KIB:
        wrong.append(f'{most[0]} KiB, and {stood[0]} at the start')
    return wrong, f'{count} queries, {alone:.3f} s the slowest alone and {late:.3f} s beside, {closed} closed and asked again, {missing} missing; {most[1]} threads, {most[2]} open files, {most[0]} KiB at most'


def main():
    words = parser_of(__doc__)
    words.add_argument('seconds', type=int, nargs='?', default=20)
    words.add_argument('clients', type=int, nargs='?', default=200)
    words.add_argument('front', type=int, nargs='?', default=64)
    words = words.parse_args()
    need_program()
    folder = tempfile.mkdtemp()
    cluster = Cluster(folder, segments(), front=words.front, every=1000)
    try:
        wrong, seen = judged(cluster.start().stands(), words.seconds, words.clients, words.front)
    finally:
        cluster.ends()
        shutil.rmtree(folder)
    print(seen)
    for it in wrong:
        print('wrong:', it)
    sys.exit(1 if wrong else 0)


if __name__ == '__main__':
    main()
