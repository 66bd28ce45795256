#!/usr/bin/env python3
"""Sends queries to a broker whose every exchange with a data node goes through a proxy that spoils answers, and checks each answer.

proxy.py [QUERIES] [CLUSTERS] [BESIDE]     10,000 queries to each of two drawn clusters, unless said otherwise; of node 0
                                           so many segments more, of a source that is not asked for: above 20,000 the
                                           broker follows it in pages

The proxy stands between the broker and three data nodes (`redirect.c` is preloaded and leads the broker's connections to it). At
drawn points it hands an answer on whole; cuts it after a drawn byte; closes without asking the node; holds it until another
answer has passed; hands it on twice in one connection; or gives, in its place, an answer that the node once gave to something
else (a health, a sync reply), or one of another status. So answers arrive in another order, doubled and late, and some exchanges
fail. What it never does is to change bytes into another whole answer to the same query: that a whole answer comes from the node
that was asked is a premise of what is promised.

Each 200 has to be the exact answer of tests/differential/rules.py, over all that is visible. Each 503 has to list slices of
visible segments as missing, in order and none twice, and its partial rows have to be the exact answer over the rest. The
broker follows its nodes through the same proxy. It needs a C compiler (`cc`). The draws are the same each time, the order of
threads is not. It ends with 1 where an answer is wrong, and shows it, where one does not come, and where the program ended.
"""
import collections
import contextlib
import json
import os
import random
import shutil
import socket
import subprocess
import sys
import tempfile
import threading
import time

HERE = os.path.dirname(os.path.abspath(__file__))
sys.path[:0] = [os.path.join(os.path.dirname(HERE), 'differential')]
import drawn  # noqa: E402
import rules  # noqa: E402
from served import free_ports, need, need_program, parser_of  # noqa: E402

CLIENTS = 4
OTHER_ANSWERS = [b'HTTP/1.1 200 OK\r\nContent-Length: 4\r\n\r\ntrue', b'HTTP/1.1 500 Internal Server Error\r\nContent-Length: 18\r\n\r\n{"error":"Memory"}',
                 b'HTTP/1.1 200 OK\r\nContent-Length: 27\r\n\r\n{"missing":[],"rows":[[0]]}', b'HTTP/1.1 200 OK\r\nContent-Length: 2\r\n\r\n[]', b'', b'\r\n\r\n']


def whole_request(stream):
    data = b''
    while b'\r\n\r\n' not in data:
        part = stream.recv(65_536)
        if not part:
            return data
        data += part
    head, _, body = data.partition(b'\r\n\r\n')
    length = next((int(line.split(b':')[1]) for line in head.split(b'\r\n') if line.lower().startswith(b'content-length')), 0)
    while len(body) < length:
        part = stream.recv(65_536)
        if not part:
            break
        data, body = data + part, body + part
    return data


class Proxy:
    """Stands in front of one node."""

    def __init__(self, port, door, seed, did):
        self.port, self.draw, self.did, self.passed = port, random.Random(seed), did, threading.Event()
        self.listener = socket.create_server(('127.0.0.1', door), backlog=128)
        threading.Thread(target=self.accept, daemon=True).start()

    def accept(self):
        while True:
            try:
                stream, _ = self.listener.accept()
            except OSError:
                return
            threading.Thread(target=self.carry, args=(stream, self.draw.random(), self.draw.random()), daemon=True).start()

    def ask(self, request):
        with socket.create_connection(('127.0.0.1', self.port), timeout=60) as node:
            node.sendall(request)
            return b''.join(iter(lambda: node.recv(65_536), b''))

    def carry(self, stream, kind, where):
        with stream, contextlib.suppress(OSError):
            request = whole_request(stream)
            if kind < .06:
                self.did['closed'] += 1
                return
            if kind < .12:
                self.did['another answer'] += 1
                stream.sendall(OTHER_ANSWERS[int(where * len(OTHER_ANSWERS))])
                return
            answer = self.ask(request)
            if kind < .24:
                self.did['cut'] += 1
                stream.sendall(answer[:int(where * len(answer))])
                return
            if kind < .34:
                self.did['held'] += 1
                self.passed.clear()
                self.passed.wait(.02)
            if kind > .9:
                self.did['twice'] += 1
                answer += answer
            self.did['handed on'] += 1
            stream.sendall(answer)
            self.passed.set()

    def ends(self):
        self.listener.close()


def ask_one(cluster, segments, body, count, wrong):
    status, answer = cluster.ask(cluster.port, 'POST', '/druid/v2', body)
    fault = rules.fault_of(rules.read_query(body), segments, status, answer)
    if fault:
        wrong.append(f'{body.decode()}\nis answered {status} {answer}\n{fault}')
    count.append(status)


def ask_all(cluster, segments, queries, count, wrong):
    """Asks what the threads have left of the queries, until one is wrong. An exception would end this thread alone: it is wrong too."""
    try:
        for body in queries:
            if wrong:
                return
            ask_one(cluster, segments, body, count, wrong)
    except BaseException as fault:
        wrong.append(f'a thread of queries ended: {fault!r}')


def fault_of_run(cluster, asked, count, wrong):
    """What is wrong once all threads have ended; None where each query was answered and the program runs."""
    if cluster.program.poll() is not None:
        return f'the program ended with {cluster.program.returncode}'
    if wrong:
        return wrong[0]
    return None if len(count) == asked else f'{asked} queries were to be asked, and {len(count)} are answered'


def follows(cluster):
    """Waits until the broker has heard of every node."""
    for _ in range(600):
        if cluster.ask(cluster.port, 'GET', '/druid/broker/v1/loadstatus', b'')[1] == '{"inventoryInitialized":true}':
            return
        time.sleep(.1)
    raise SystemExit('the broker does not hear of its nodes')


def run(number, many, beside, library):
    folder, did, proxies = tempfile.mkdtemp(prefix='druid_cluster_hostile_'), collections.Counter(), []
    ports = free_ports(7)
    nodes, doors = ports[1:4], ports[4:]
    try:
        proxies = [Proxy(port, door, f'{number} {node}', did) for node, (port, door) in enumerate(zip(nodes, doors))]
        redirect = {'LD_PRELOAD': library, 'REDIRECT': ''.join(f'{port}:{door} ' for port, door in zip(nodes, doors))}
        # Many turns: some of them fail, and the last that comes through makes the broker know all that the node serves.
        cluster = drawn.Cluster(random.Random(number), folder, redirect, turns=60, beside=beside, ports=ports[:4])
        try:
            follows(cluster)
            segments, count, wrong = list({rules.identifier(it): it for held in cluster.held for it in held}.values()), [], []
            queries = [json.dumps(cluster.a_query()).encode() for _ in range(many)]
            queries = [it for it in queries if is_lawful(it)]
            left = iter(queries)
            threads = [threading.Thread(target=ask_all, args=(cluster, segments, left, count, wrong)) for _ in range(CLIENTS)]
            for it in threads:
                it.start()
            for it in threads:
                it.join()
            fault = fault_of_run(cluster, len(queries), count, wrong)
            print(f'cluster {number}: {len(count)} queries answered,', ', '.join(f'{count.count(it)} {it}' for it in sorted(set(count))) + ';',
                  'exchanges', ', '.join(f'{did[it]} {it}' for it in sorted(did)))
            if fault:
                print(fault)
                return 1
        finally:
            cluster.ends()
    finally:
        for it in proxies:
            it.ends()
        shutil.rmtree(folder, ignore_errors=True)
    return 0


def is_lawful(body):
    try:
        rules.read_query(body)
        return True
    except rules.Refused:
        return False


def main():
    parser = parser_of(__doc__)
    parser.add_argument('queries', nargs='?', type=int, default=10_000)
    parser.add_argument('clusters', nargs='?', type=int, default=2)
    parser.add_argument('beside', nargs='?', type=int, default=0)
    asked = parser.parse_args()
    need_program()
    need('cc')
    with tempfile.TemporaryDirectory() as room:
        library = f'{room}/redirect.so'
        subprocess.run(['cc', '-shared', '-fPIC', '-O1', '-o', library, f'{HERE}/redirect.c', '-ldl'], check=True)
        return max((run(number, asked.queries, asked.beside, library) for number in range(asked.clusters)), default=0)


if __name__ == '__main__':
    sys.exit(main())
