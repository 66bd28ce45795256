#!/usr/bin/env python3
"""Percentiles of queries to a broker while one of three nodes ails.

ailing.py [--queries N] [--patience MS]     1,000 queries and 1,000 milliseconds unless said otherwise

Three nodes and a broker, each in a process of its own (DRUID_CLUSTER_PART); each of 24 segments is on two of the nodes. One client
asks one query after another: with all nodes well, with one that accepts and keeps silent, with one that is stopped (SIGSTOP), and with
one that refuses connections. It asks without a rest, so the table says also how many queries each state took a second.
"""
import json
import os
import signal
import socket
import subprocess
import sys
import tempfile
import threading
import time

sys.path.insert(0, os.path.join(os.path.dirname(os.path.dirname(os.path.abspath(__file__))), 'tests'))
from served import DAY, PROGRAM, QUERY, Segment, exchange, free_ports, need_program, parser_of, write_segments  # noqa: E402

START = 1_704_067_200_000
HOUR = DAY // 24


def segments():
    """An hour each of a day, with 100 rows."""
    for hour in range(24):
        begin = START + hour * HOUR
        rows = [(begin + row, [str(row % 10)], [1]) for row in range(100)]
        yield Segment('wiki', begin, begin + HOUR, 'v1', 0, 1, 0, ['page'], ['n'], rows)


class Apart:
    """Three nodes and a broker, each a process."""

    def __init__(self, folder, patience):
        self.folder, self.processes = folder, {}
        self.broker, *self.nodes = free_ports(4)
        held = [[], [], []]
        for place, segment in enumerate(segments()):
            held[place % 3].append(segment)
            held[(place + 1) % 3].append(segment)
        for number, some in enumerate(held):
            write_segments(f'{folder}/n{number}', some)
        self.config = f'{folder}/config.json'
        with open(self.config, 'w') as file:
            json.dump({
                'brokers': [{'address': f'127.0.0.1:{self.broker}', 'workers': 4}], 'every': 200, 'kept': 100, 'patience': patience,
                'nodes': [{'address': f'127.0.0.1:{port}', 'folder': f'{folder}/n{number}', 'loads': [], 'name': f'n{number}', 'workers': 4}
                          for number, port in enumerate(self.nodes)], 'queries': [], 'turns': 1}, file)

    def start(self, part, port):
        self.processes[part] = subprocess.Popen([PROGRAM, 'serve', self.config], stdout=subprocess.DEVNULL, stderr=subprocess.DEVNULL,
                                                env={**os.environ, 'DRUID_CLUSTER_PART': part})
        for _ in range(600):
            try:
                if exchange(port, 'GET', '/status/health', wait=5)[0] == 200:
                    return
            except OSError:
                time.sleep(0.05)
        raise SystemExit(f'{part} does not answer')

    def start_all(self):
        for number, port in enumerate(self.nodes):
            self.start(f'n{number}', port)
        self.start('broker:0', self.broker)

    def kill(self, part):
        process = self.processes.pop(part)
        process.kill()
        process.wait()

    def end(self):
        for part in list(self.processes):
            self.processes[part].send_signal(signal.SIGCONT)
            self.kill(part)


def ask(cluster):
    query = {'aggregations': [{'fieldName': 'n', 'name': 'n', 'type': 'longSum'}], 'dataSource': 'wiki', 'granularity': 'all',
             'intervals': '2024-01-01/2024-01-02', 'queryType': 'timeseries'}
    began = time.perf_counter()
    status, body = exchange(cluster.broker, 'POST', QUERY, json.dumps(query).encode())
    spent = time.perf_counter() - began
    if status != 200 or json.loads(body)[0]['result']['n'] != 2_400:
        raise SystemExit(f'another answer: {status} {body[:200]}')
    return spent


def wait_until_whole(cluster):
    """Until the broker knows the nodes and none ails."""
    deadline = time.monotonic() + 60
    while time.monotonic() < deadline:
        try:
            if ask(cluster) < 0.2 and ask(cluster) < 0.2:
                return
        except (SystemExit, OSError):
            pass
        time.sleep(0.1)
    raise SystemExit('the cluster is not whole')


def keep_silent(port, over):
    """Accepts connections, and says nothing."""
    with socket.create_server(('127.0.0.1', port)) as server:
        server.settimeout(0.1)
        held = []
        while not over.is_set():
            try:
                held.append(server.accept()[0])
            except TimeoutError:
                pass


def report(name, times):
    whole, times = sum(times), sorted(times)
    at = [times[min(len(times) - 1, int(len(times) * share))] * 1_000 for share in (0.5, 0.9, 0.99, 0.999)]
    print(f'{name:22} {len(times) / whole:7.0f} a second, ms: half {at[0]:7.1f}, 90% {at[1]:7.1f}, 99% {at[2]:7.1f}, '
          f'99.9% {at[3]:7.1f}, longest {times[-1] * 1_000:7.1f}', flush=True)


def main():
    parser = parser_of(__doc__)
    parser.add_argument('--queries', type=int, default=1_000)
    parser.add_argument('--patience', type=int, default=1_000)
    asked = parser.parse_args()
    need_program()
    with tempfile.TemporaryDirectory() as folder:
        cluster = Apart(folder, asked.patience)
        try:
            cluster.start_all()
            wait_until_whole(cluster)
            report('all well', [ask(cluster) for _ in range(asked.queries)])
            cluster.processes['n0'].send_signal(signal.SIGSTOP)
            report('one stopped', [ask(cluster) for _ in range(asked.queries)])
            cluster.processes['n0'].send_signal(signal.SIGCONT)
            wait_until_whole(cluster)
            cluster.kill('n0')
            report('one refuses', [ask(cluster) for _ in range(asked.queries)])
            over = threading.Event()
            silent = threading.Thread(target=keep_silent, args=(cluster.nodes[0], over))
            silent.start()
            try:
                report('one keeps silent', [ask(cluster) for _ in range(asked.queries)])
            finally:
                over.set()
                silent.join()
            cluster.start('n0', cluster.nodes[0])
            wait_until_whole(cluster)
            report('all well again', [ask(cluster) for _ in range(asked.queries)])
        finally:
            cluster.end()


if __name__ == '__main__':
    main()
