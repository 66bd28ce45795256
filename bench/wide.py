#!/usr/bin/env python3
"""How long a broker takes over nodes whose groups are all different.

wide.py [--groups N] [--nodes N ..] [--runs N]     20,000 groups, 1, 2, 4 and 8 nodes, and the median of five, unless said otherwise

Each node, and the broker, is a process of its own (DRUID_CLUSTER_PART). Node k has two segments, half a day each, with a row of each
of its groups. A `groupBy` of all is asked of the broker; beside it stands what one node takes alone for its subquery, and a broker over
that one. The rows of each answer are counted. (An answer of a broker ends at 16 MiB: some 180,000 of these rows.)
"""
import json
import os
import socket
import statistics
import subprocess
import sys
import tempfile
import time

sys.path.insert(0, os.path.join(os.path.dirname(os.path.dirname(os.path.abspath(__file__))), 'tests'))
from served import DAY, PROGRAM, QUERY, Segment, exchange, free_ports, need_program, parser_of, request, write_segments  # noqa: E402

START = 1_704_067_200_000
WHOLE, HALVES = '2024-01-01T00:00Z/2024-01-02T00:00Z', ('2024-01-01T00:00Z/2024-01-01T12:00Z', '2024-01-01T12:00Z/2024-01-02T00:00Z')
ASKED = {'aggregations': [{'fieldName': 'm', 'name': 's', 'type': 'longSum'}], 'dataSource': 'wide', 'dimensions': ['d'],
         'granularity': 'all', 'intervals': WHOLE, 'queryType': 'groupBy'}


def segments(node, groups):
    """Two halves of a day; the partition is the node's number."""
    for half in range(2):
        begin = START + half * DAY // 2
        rows = [(begin + row * DAY // 2 // groups, [f'n{node}_{row * 7919 % groups:06}'], [row]) for row in range(groups)]
        yield Segment('wide', begin, begin + DAY // 2, 'v1', node, 0, 0, ['d'], ['m'], rows)


class Apart:
    """So many nodes and a broker, each a process."""

    def __init__(self, folder, nodes):
        self.broker, *self.nodes = free_ports(1 + nodes)
        self.processes, self.config = [], f'{folder}/{nodes}.json'
        with open(self.config, 'w') as file:
            json.dump({
                'brokers': [{'address': f'127.0.0.1:{self.broker}', 'workers': 2}], 'every': 200, 'kept': 100,
                'nodes': [{'address': f'127.0.0.1:{port}', 'folder': f'{folder}/n{number}', 'loads': [], 'name': f'n{number}', 'workers': 2}
                          for number, port in enumerate(self.nodes)], 'queries': [], 'turns': 1}, file)

    def __enter__(self):
        for part, port in [*((f'n{number}', port) for number, port in enumerate(self.nodes)), ('broker:0', self.broker)]:
            self.processes.append(subprocess.Popen([PROGRAM, 'serve', self.config], stdout=subprocess.DEVNULL, stderr=subprocess.DEVNULL,
                                                   env={**os.environ, 'DRUID_CLUSTER_PART': part}))
            wait_for(port)
        return self

    def __exit__(self, *_):
        for it in self.processes:
            it.kill()
            it.wait()


def wait_for(port):
    for _ in range(1200):
        try:
            if exchange(port, 'GET', '/status/health', wait=5)[0] == 200:
                return
        except OSError:
            time.sleep(0.05)
    raise SystemExit(f'nothing answers at {port}')


def timed(port, body):
    """How long it takes until the last byte of an answer has come, and the answer with its head."""
    began = time.perf_counter()
    with socket.create_connection(('127.0.0.1', port), timeout=70) as stream:
        stream.sendall(request('POST', QUERY, body))
        parts = list(iter(lambda: stream.recv(1 << 20), b''))
        return time.perf_counter() - began, b''.join(parts)


def median(port, body, runs, whole):
    """Of so many answers, once one is whole."""
    spent = []
    until = time.monotonic() + 60
    while len(spent) <= runs:
        took, answer = timed(port, body)
        if whole(answer):
            spent.append(took)
        elif spent or time.monotonic() > until:
            raise SystemExit(f'another answer: {answer[:200]}')
    return statistics.median(spent[1:])


def subquery():
    """For both segments of node 0."""
    asked = [{'chunk': half, 'itvl': half, 'part': 0, 'ver': 'v1'} for half in HALVES]
    return {**ASKED, 'intervals': {'segments': asked, 'type': 'segments'}, 'queryIntervals': [WHOLE]}


def main():
    parser = parser_of(__doc__)
    parser.add_argument('--groups', type=int, default=20_000)
    parser.add_argument('--nodes', type=int, nargs='+', default=[1, 2, 4, 8])
    parser.add_argument('--runs', type=int, default=5)
    asked = parser.parse_args()
    need_program()
    with tempfile.TemporaryDirectory() as folder:
        for node in range(max(asked.nodes)):
            write_segments(f'{folder}/n{node}', list(segments(node, asked.groups)))
        alone = None
        for nodes in asked.nodes:
            with Apart(folder, nodes) as cluster:
                if alone is None:
                    alone = median(cluster.nodes[0], json.dumps(subquery()).encode(), asked.runs,
                                   lambda answer: answer.count(b'n0_') == asked.groups)
                    print(f'one node alone, {asked.groups:,} groups: {alone * 1e3:8.1f} ms', flush=True)
                spent = median(cluster.broker, json.dumps(ASKED).encode(), asked.runs,
                               lambda answer: answer.count(b'"d":') == nodes * asked.groups)
                print(f'a broker over {nodes} nodes: {nodes * asked.groups:9,} groups {spent * 1e3:8.1f} ms ({spent / alone:5.2f} of one node)',
                      flush=True)


if __name__ == '__main__':
    main()
