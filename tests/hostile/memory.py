#!/usr/bin/env python3
"""Takes memory away from a served cluster while it answers queries, and gives it back.

memory.py [ROUNDS]     20 rounds unless said otherwise

A cluster of two data nodes and a broker is served. While clients ask it queries, the address space that its process may have
(`prlimit --as`) is lowered step by step to what it uses, and below what any of its calls would take, and is then raised again. So
allocations are refused at whatever moment comes. Each answer has to be the exact one of tests/differential/rules.py; or 500 with
`{"error":"Memory"}`; or 503 with what is missing (of a node that had no memory) and the exact answer over the rest; or none at all.
Once memory is there again, each has to be exact. The program has to go on. It ends with 1 where that fails, and where no answer was
`Memory` or none exact: then the run shows nothing. A program with checks of memory (`./druid_cluster preview`) ends where some is
refused, so it is not taken.
"""
import collections
import json
import os
import random
import resource
import shutil
import sys
import tempfile
import threading
import time

TESTS = os.path.dirname(os.path.dirname(os.path.abspath(__file__)))
sys.path[:0] = [TESTS, os.path.join(TESTS, 'differential')]
import rules  # noqa: E402
from served import DAY, QUERY, Cluster, Segment, exchange, has_checks, need_program, parser_of  # noqa: E402

CLIENTS, NO_LIMIT = 3, resource.RLIM_INFINITY
ROOMS = [1 << 20, 256 << 10, 64 << 10, 16 << 10, 0, -1 << 20]  # Bytes above what the program uses.
MEMORY = 500, '{"error":"Memory"}'

# The C library's allocator gives back what is let go, so that each query has to ask the system for memory again.
GIVES_BACK = {'MALLOC_ARENA_MAX': '1', 'MALLOC_TRIM_THRESHOLD_': '4096', 'MALLOC_TOP_PAD_': '0', 'MALLOC_MMAP_THRESHOLD_': '16384'}


def rows(seed, many):
    draw = random.Random(seed)
    return [(draw.randrange(DAY), [f'value {draw.randrange(500)}'], [draw.randrange(100)]) for _ in range(many)]


def queries():
    front = {'dataSource': 'w', 'intervals': '1970-01-01/1970-01-02', 'aggregations': [{'type': 'count', 'name': 'n'}, {'type': 'longSum', 'name': 's', 'fieldName': 'm'}]}
    return [json.dumps(it).encode() for it in (
        {**front, 'queryType': 'groupBy', 'granularity': 'all', 'dimensions': ['d']},
        {**front, 'queryType': 'groupBy', 'granularity': 'hour', 'dimensions': ['d']},
        {**front, 'queryType': 'timeseries', 'granularity': 'second'},
        {**front, 'queryType': 'timeseries', 'granularity': 'all'})]


def as_rules(it):
    """A segment as tests/differential/rules.py has it."""
    rows_of = [(time, dict(zip(it.dimensions, texts)), dict(zip(it.metrics, numbers))) for time, texts, numbers in it.rows]
    return {'source': it.source, 'start': it.start, 'end': it.end, 'version': it.version, 'part': it.partition, 'core': it.core,
            'dims': it.dimensions, 'mets': it.metrics, 'rows': rows_of}


class Answers:
    """What may be answered over these segments; what it has compared once it knows."""

    def __init__(self, segments):
        self.segments, self.known = segments, {}

    def fault_of(self, body, status, answer):
        """What is wrong with an answer; None where nothing is."""
        if (status, answer) == MEMORY:
            return None
        key = body, status, answer
        if key not in self.known:
            self.known[key] = rules.fault_of(rules.read_query(body), self.segments, status, answer)
        return self.known[key]


class Clients:
    """Ask the same queries again and again, and look at each answer."""

    def __init__(self, port, answers):
        self.port, self.answers, self.is_over, self.wrong, self.count = port, answers, False, [], collections.Counter()
        self.threads = [threading.Thread(target=self.ask_all, args=(number,)) for number in range(CLIENTS)]
        for it in self.threads:
            it.start()

    def ask_all(self, number):
        draw, bodies = random.Random(number), queries()
        try:
            while not self.is_over and not self.wrong:
                self.ask(draw.choice(bodies))
        except BaseException as fault:
            self.wrong.append(f'a thread of queries ended: {fault!r}')

    def ask(self, body):
        try:
            status, answer = exchange(self.port, 'POST', QUERY, body)
        except (OSError, IndexError, ValueError):
            self.count['no answer'] += 1
            return
        fault = self.answers.fault_of(body, status, answer.decode())
        self.count['Memory' if (status, answer.decode()) == MEMORY else str(status)] += 1
        if fault:
            self.wrong.append(f'{body} is answered {status} {answer[:300]}: {fault[:300]}')

    def ends(self):
        self.is_over = True
        for it in self.threads:
            it.join()


def used(process):
    with open(f'/proc/{process.pid}/statm') as file:
        return int(file.read().split()[0]) * resource.getpagesize()


def starve(process):
    """Takes memory away, step by step, and gives it back."""
    for room in ROOMS:
        resource.prlimit(process.pid, resource.RLIMIT_AS, (used(process) + room, NO_LIMIT))
        time.sleep(.15)
    resource.prlimit(process.pid, resource.RLIMIT_AS, (NO_LIMIT, NO_LIMIT))
    time.sleep(.3)


def asked_once(cluster, answers):
    """What is wrong with the answers while memory is there; None where each is exact."""
    for body in queries():
        status, answer = exchange(cluster.broker, 'POST', QUERY, body)
        fault = answers.fault_of(body, status, answer.decode()) if status == 200 else 'memory is there'
        if fault:
            return f'{body} is answered {status} {answer[:300]}: {fault[:300]}'
    return None


def fault_of_run(cluster, answers, rounds):
    """What is wrong with a run; None where nothing is."""
    fault = asked_once(cluster, answers)
    if fault:
        return f'before memory was taken away: {fault}'
    clients = Clients(cluster.broker, answers)
    try:
        for _ in range(rounds):
            if clients.wrong or cluster.process.poll() is not None:
                break
            starve(cluster.process)
    except OSError:
        pass  # The program is gone, which is looked at below.
    finally:
        clients.ends()
    print('answers while memory was taken away and given back:', ', '.join(f'{clients.count[it]:,} {it}' for it in sorted(clients.count)))
    if cluster.process.poll() is not None:
        return f'the program ended with {cluster.process.returncode}'
    if clients.wrong:
        return clients.wrong[0]
    if not clients.count['Memory'] or not clients.count['200']:
        return 'no answer was `Memory`, or none was exact: this run shows nothing'
    fault = asked_once(cluster, answers)
    return fault and f'once memory is there again: {fault}'


def main():
    parser = parser_of(__doc__)
    parser.add_argument('rounds', nargs='?', type=int, default=20)
    rounds = parser.parse_args().rounds
    need_program()
    if has_checks():
        sys.exit('a program with checks of memory ends where some is refused: this test needs the proved one')
    folder = tempfile.mkdtemp(prefix='druid_cluster_memory_')
    held = [[Segment('w', 0, DAY, 'v', it, 2, 0, ['d'], ['m'], rows(it, 5_000))] for it in range(2)]
    cluster = Cluster(folder, held, environment=GIVES_BACK)
    try:
        cluster.start().stands()
        fault = fault_of_run(cluster, Answers([as_rules(it) for of_node in held for it in of_node]), rounds)
        if fault:
            print(f'wrong: {fault}')
        return 1 if fault else 0
    finally:
        cluster.ends()
        shutil.rmtree(folder, ignore_errors=True)


if __name__ == '__main__':
    sys.exit(main())
