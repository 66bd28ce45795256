#!/usr/bin/env python3
"""Draws clusters, serves them, and compares what brokers and nodes answer with the rules as tests/differential/rules.py reads them.

drawn.py [CLUSTERS] [REQUESTS]     3 clusters of three nodes, and 2,000 requests to each, unless said otherwise

Segments of several versions, with partitions, replicas, nulls and numbers at the ends of their range, are written as files, half of
them by columns, and some are tombstones, which the config names; the built program serves them on free loopback ports. Half of the
requests are queries, subqueries and asks as users write them, and half are spoiled: a key left out, a value in place of another,
bytes cut off. Each status and each body is compared. The draws are the same each time. It ends with 1 where an answer differs, and
shows the first of them, or where the program that it started ended or gave none. It stands apart from the gate, and checks what no
proof can: that the definitions say what their readers mean.
"""
import copy
import json
import os
import random
import select
import shutil
import subprocess
import sys
import tempfile

HERE = os.path.dirname(os.path.abspath(__file__))
sys.dont_write_bytecode = True
sys.path[:0] = [HERE, os.path.dirname(HERE)]
import rules  # noqa: E402
import served  # noqa: E402

STANDING = 600  # Seconds until a cluster stands: tens of thousands of files take minutes.
DAY, HOUR, MINUTE = rules.DAY, 3_600_000, 60_000
START = rules.instant('2024-01-01')
KEPT = 10
MAX_BODY = 16_777_216  # What is longer is refused before it is read (X7), so the connection may be gone before it is sent.
FIELDS = ['d', 'e', 'f', 'm', 'both', 'nowhere']
TEXTS = [None, '', 'a', 'b', 'é', '5', '"q\\', '\u0001']
NUMBERS = [None, 0, 1, -1, 2**63 - 1, -2**63]


def nested(depth):
    it = {'type': 'and', 'fields': []}
    for _ in range(depth - 1):
        it = {'type': 'not', 'field': it}
    return it


def counts(many):
    return [{'type': 'count', 'name': f'n{i}'} for i in range(many)]


# What spoils a request: values of other shapes, and values at and past each limit.
WRONG = [
    None, True, False, 0, 1, -1, 1.5, 65_535, 65_536, '', 'a', 'x' * 100, 'x' * 101, 'é' * 50, 'é' * 51, [], {}, [1], {'a': 1}, [None], [''],
    'all', 'ALL', 'none', 'timeseries', 'groupBy', 'topN', {'type': 'all'}, {'type': 'ALL'}, {'type': 'table', 'name': 'w'}, {'type': 'table'},
    '2024-01-01/2024-01-02', '2024-01-02/2024-01-01', '2024-01-01/P1D', '2024-02-30/2024-03-01', '2024-01-01T24:00/2024-01-03',
    '2024-01-01T00:00z/2024-01-03', '2024-01-01Z/2024-01-03', ' 2024-01-01/2024-01-03', '2024-01-01/2024-01-03/',
    '9999-12-31T23:59:59.998Z/9999-12-31T23:59:59.999Z', '0000-01-01/9999-12-31T23:59:59.999Z', ['2024-01-01/2024-01-02', 5],
    ['2024-01-01/2024-01-02'] * 1_000, ['2024-01-01/2024-01-02'] * 1_001, {'type': 'intervals', 'intervals': '2024-01-01/2024-01-02'},
    {'type': 'intervals', 'intervals': []}, {'type': 'segments', 'segments': []}, {'type': 'segments', 'segments': [{}]},
    {'type': 'selector', 'dimension': 'd'}, {'type': 'selector', 'dimension': 'd', 'value': 'x' * 1_024},
    {'type': 'selector', 'dimension': 'd', 'value': 'x' * 1_025}, {'type': 'selector', 'dimension': '', 'value': None},
    {'type': 'in', 'dimension': 'd', 'values': ['a'] * 1_000}, {'type': 'in', 'dimension': 'd', 'values': ['a'] * 1_001},
    {'type': 'in', 'dimension': 'd', 'values': ['a', 1]}, {'type': 'or', 'fields': []}, {'type': 'not'}, {'type': 'not', 'field': None},
    {'type': 'and', 'fields': [{'type': 'or', 'fields': []}] * 999}, {'type': 'and', 'fields': [{'type': 'or', 'fields': []}] * 1_000},
    {'type': 'regex', 'dimension': 'd', 'pattern': ''}, nested(50), nested(51), nested(120), nested(126),
    {'type': 'default', 'dimension': 'd', 'outputName': None}, {'dimension': 'd'}, {'type': 'default', 'dimension': 'd', 'outputName': 'x' * 101},
    ['d'] * 17, [{'type': 'default', 'dimension': 'd', 'outputName': f'o{i}'} for i in range(16)],
    {'type': 'count', 'name': 'n'}, {'type': 'count'}, {'type': 'longSum', 'name': 'n'}, {'type': 'doubleSum', 'name': 'n', 'fieldName': 'm'},
    counts(16), counts(17), counts(1) * 2, 'v_1', 'v/1', 'v' * 64, 'v' * 65]
KEYS = ['queryType', 'dataSource', 'granularity', 'intervals', 'queryIntervals', 'filter', 'dimensions', 'aggregations', 'descending', 'context',
        *rules.EMPTY_KEYS]
BODIES = [
    b'', b'[', b'null', b'5', b'"x"', b'[]', b'{}', b'\xef\xbb\xbf{}', b'{"queryType":"\\ud800"}', b'{"queryType":1e999}', b'[' * 200 + b']' * 200,
    b'{"a":' * 127 + b'1' + b'}' * 127, b'{"a":' * 128 + b'1' + b'}' * 128, b' {} \r\n', b'{"queryType":"timeseries","queryType":"topN"}',
    b'{"queryType":"topN","queryType":"timeseries"}']
PARAMETERS = ['counter', 'hash', 'timeout=60000', '', 'Counter=1', 'counter=-1', 'counter=', 'counter=00', 'counter=+1', 'counter=1.0', 'counter=%31',
              'counter=18446744073709551615', 'counter=18446744073709551616', 'hash=1', 'hash=1', 'hash=2', 'hash=0', 'hash=01', 'hash=']


class Cluster:
    """Three nodes over folders, and a broker that follows them. The ports are the broker's and then the nodes'."""

    def __init__(self, draw, folder, environment=None, turns=3, beside=0, ports=None):
        """`beside` are more segments of node 0, of a source that no query asks for."""
        self.draw = draw
        self.port, *self.nodes = ports or served.free_ports(4)
        self.segments = self.draw_segments()
        self.held = [[it for it in self.segments if draw.random() < .6] for _ in range(3)]
        for node, held in enumerate(self.held):
            # A node loads its files in the order of their names, and then places its tombstones.
            held.sort(key=lambda it: ('tombstone' in it, (rules.identifier(it) + '.seg').encode()))
            os.makedirs(f'{folder}/{node}')
            for it in held:
                if 'tombstone' in it:
                    continue
                with open(f'{folder}/{node}/{rules.identifier(it)}.seg', 'wb') as file:
                    file.write(rules.segment_file(it, draw.random() < .5))
        for part in range(beside):
            it = {'source': 'beside', 'start': START, 'end': START + HOUR, 'version': 'v1', 'part': part, 'core': 0, 'dims': [], 'mets': [], 'rows': []}
            with open(f'{folder}/0/{rules.identifier(it)}.seg', 'wb') as file:
                file.write(rules.segment_file(it, False))
        nodes = [{'address': f'127.0.0.1:{self.nodes[i]}', 'folder': f'{folder}/{i}', 'loads': [], 'name': f'n{i}', 'workers': 2, 'threads': (1, 3, 16)[i],
                  'tombstones': [rules.chunk_of(it) for it in self.held[i] if 'tombstone' in it]} for i in range(3)]
        query = {'queryType': 'timeseries', 'dataSource': 'w', 'granularity': 'all', 'intervals': '2024-01-01/2024-01-02'}
        with open(f'{folder}/config.json', 'w') as file:
            json.dump({'brokers': [{'address': f'127.0.0.1:{self.port}', 'workers': 4}], 'connections': 1_000_000, 'kept': KEPT, 'nodes': nodes,
                       'queries': [{'broker': 0, 'query': query}], 'turns': turns}, file)
        self.program = subprocess.Popen([served.PROGRAM, 'serve', f'{folder}/config.json'], stdout=subprocess.PIPE,
                                        env={**os.environ, **(environment or {})})
        self.stands()

    def stands(self):
        """Waits until this program, which alone writes to the pipe, has answered the config's query: so its broker knows all nodes."""
        ready, _, _ = select.select([self.program.stdout], [], [], STANDING)
        if not ready or not self.program.stdout.readline():
            self.ends()
            raise SystemExit(f'the cluster does not stand: the program ended with {self.program.returncode}')

    def ends(self):
        self.program.kill()
        self.program.wait()

    def ask(self, port, method, target, body):
        """The status and the body of an answer. It raises where there is none, or where the program ended: then another may listen there."""
        try:
            status, answer = served.exchange(port, method, target, body)
        except (OSError, IndexError, ValueError) as fault:
            raise SystemExit(f'{method} {target} {body[:300]}: no answer, {fault!r}; the status of the program is {self.program.poll()}') from None
        if self.program.poll() is not None:
            raise SystemExit(f'the program ended with {self.program.returncode}')
        return status, answer.decode()

    def draw_segments(self):
        draw, found = self.draw, {}
        for source in ('w', 'v'):
            for _ in range(draw.randint(4, 9)):
                start = START + draw.randint(0, 47) * HOUR
                end = start + draw.randint(1, 30) * HOUR
                core = draw.choice([0, 1, 1, 2, 3])
                version = draw.choice(['v1', 'v2', 'v9', 'v10', '2024-01-01T00:00:00.000Z'])
                parts = set(draw.sample(range(4), draw.randint(1, 4))) | set(range(core) if draw.random() < .7 else [])
                for part in sorted(parts):
                    it = {'source': source, 'start': start, 'end': end, 'version': version, 'part': part, 'core': core}
                    it['dims'] = draw.sample(['d', 'e', 'f', 'both'], draw.randint(0, 4))
                    it['mets'] = draw.sample(['m', 'n'] + ['both'] * ('both' not in it['dims']), draw.randint(0, 2))
                    it['rows'] = [self.draw_row(it) for _ in range(draw.randint(0, 25))]
                    found[rules.identifier(it)] = it
            for _ in range(draw.randint(0, 3)):
                start = START + draw.randint(0, 47) * HOUR
                it = {'source': source, 'start': start, 'end': start + draw.randint(1, 30) * HOUR, 'version': draw.choice(['v2', 'v9', 'v91']), 'part': 0,
                      'core': 1, 'dims': [], 'mets': [], 'rows': [], 'tombstone': True}
                found.setdefault(rules.identifier(it), it)
        return list(found.values())

    def draw_row(self, it):
        draw = self.draw
        time = draw.choice([it['start'], it['end'] - 1, draw.randint(it['start'], it['end'] - 1)])
        return time, {name: draw.choice(TEXTS) for name in it['dims']}, {name: draw.choice(NUMBERS) for name in it['mets']}

    # Requests

    def an_interval(self):
        draw = self.draw
        start = START + draw.randint(-5, 80) * HOUR // 2
        shown = draw.choice([rules.printed(start), rules.printed(start)[:-1], rules.printed(start)[:16], rules.printed(start)[:10]])
        return f'{shown}/{rules.printed(start + draw.choice([1, MINUTE, HOUR, DAY, 3 * DAY]))}'

    def a_filter(self, depth=0):
        draw, kind = self.draw, self.draw.random()
        if kind < .35 or depth > 3:
            return {'type': 'selector', 'dimension': draw.choice(FIELDS), 'value': draw.choice(TEXTS)}
        if kind < .6:
            return {'type': 'in', 'dimension': draw.choice(FIELDS), 'values': [draw.choice(TEXTS) for _ in range(draw.randint(0, 4))]}
        if kind < .75:
            return {'type': 'not', 'field': self.a_filter(depth + 1)}
        return {'type': draw.choice(['and', 'or']), 'fields': [self.a_filter(depth + 1) for _ in range(draw.randint(0, 3))]}

    def a_query(self):
        draw = self.draw
        some = [self.an_interval() for _ in range(draw.randint(1, 4))]
        query = {
            'queryType': draw.choice(['timeseries', 'groupBy']),
            'dataSource': draw.choice(['w', 'v', 'nowhere', {'type': 'table', 'name': 'w'}]),
            'granularity': draw.choice(['all', 'ALL', 'second', 'Minute', 'hour', 'day', 'dAY', {'type': 'all'}]),
            'intervals': draw.choice([some[0], some, {'type': 'intervals', 'intervals': some}, '2023-01-01/2025-01-01'])}
        if draw.random() < .6:
            query['filter'] = self.a_filter() if draw.random() < .8 else None
        if draw.random() < .8:
            query['dimensions'] = [draw.choice([name, {'type': 'default', 'dimension': name}, {'type': 'default', 'dimension': name, 'outputName': 'o' + name}])
                                   for name in draw.sample(FIELDS, draw.randint(0, 3))]
        if draw.random() < .9:
            query['aggregations'] = [draw.choice([{'type': 'count', 'name': f'a{i}'}, *({'type': kind, 'name': f'a{i}', 'fieldName': draw.choice(FIELDS + ['n'])}
                                                                                      for kind in ('longSum', 'longMin', 'longMax'))])
                                     for i in range(draw.randint(0, 4))]
        if draw.random() < .3:
            query.update(draw.choice([{'context': {'x': [1]}}, {'descending': False}, {draw.choice(rules.EMPTY_KEYS): draw.choice([None, [], {}])}]))
        return query

    def a_subquery(self):
        draw, query, pieces = self.draw, self.a_query(), []
        query['dataSource'] = draw.choice(['w', 'v'])
        query['queryIntervals'] = [self.an_interval() for _ in range(draw.randint(1, 3))]
        for it in self.segments:
            if it['source'] == query['dataSource'] and draw.random() < .6:
                ends = sorted({it['start'], it['end'], *(draw.randint(it['start'], it['end']) for _ in range(draw.choice([0, 0, 1, 2])))})
                pieces += [{'chunk': rules.span(it['start'], it['end']), 'itvl': rules.span(start, end), 'part': draw.choice([it['part']] * 9 + [77]),
                            'ver': it['version']} for start, end in zip(ends, ends[1:])]
        draw.shuffle(pieces)
        query['intervals'] = {'type': 'segments', 'segments': pieces}
        return query

    def spoiled(self, query):
        """A query with some of its places changed or left out."""
        draw, query = self.draw, copy.deepcopy(query)
        for _ in range(draw.choice([1, 1, 2, 3])):
            if draw.random() < .4:
                query[draw.choice(KEYS)] = copy.deepcopy(draw.choice(WRONG))
                continue
            *path, last = draw.choice([path for path in paths(query) if path])
            inside = query
            for step in path:
                inside = inside[step]
            if draw.random() < .25:
                del inside[last]
            elif isinstance(inside, list) and draw.random() < .2:
                inside.append(copy.deepcopy(inside[last]))
            else:
                inside[last] = copy.deepcopy(draw.choice(WRONG))
        return query

    def body_of(self, query):
        draw, kind = self.draw, self.draw.random()
        if kind < .9:
            return json.dumps(query if kind < .45 else self.spoiled(query), ensure_ascii=draw.random() < .5).encode()
        body = json.dumps(query).encode()
        place = draw.randint(0, len(body))
        return draw.choice([body[:place], body[:place] + bytes([draw.randint(0, 255)]) + body[place:], body[:place] + body[place + 1:], draw.choice(BODIES)])

    def request(self):
        """A request, and the status and the body that the rules answer to it."""
        draw, kind, node = self.draw, self.draw.random(), self.draw.randrange(3)
        target = draw.choice(['/druid/v2', '/druid/v2/', '/druid/v2?pretty'])
        if kind < .2:
            some = '&'.join(draw.choice([f'counter={draw.randint(0, 25)}', *PARAMETERS]) for _ in range(draw.choice([0, 1, 2, 2, 2, 3])))
            ask = f'/druid-internal/v1/segments?{some}' if some else '/druid-internal/v1/segments'
            return (self.nodes[node], 'GET', ask, b''), rules.reply(rules.read_ask(some), self.held[node], KEPT)
        body = self.body_of(self.a_query() if kind < .6 else self.a_subquery())
        try:
            if kind < .6:
                served = {rules.identifier(it): it for held in self.held for it in held}
                return (self.port, 'POST', target, body), (200, rules.answer(rules.read_query(body), served.values()))
            return (self.nodes[node], 'POST', target, body), (200, rules.node_answer(rules.read_subquery(body), self.held[node]))
        except rules.Refused as refused:
            return (self.port if kind < .6 else self.nodes[node], 'POST', target, body), (400, refused.text())


def paths(it, path=()):
    yield path
    for step in it if isinstance(it, dict) else range(min(len(it), 5)) if isinstance(it, list) else ():
        yield from paths(it[step], (*path, step))


def main():
    parser = served.parser_of(__doc__)
    parser.add_argument('clusters', nargs='?', type=int, default=3)
    parser.add_argument('requests', nargs='?', type=int, default=2_000)
    asked = parser.parse_args()
    served.need_program()
    for number in range(asked.clusters):
        folder, reported, cluster = tempfile.mkdtemp(prefix='druid_cluster_drawn_'), {}, None
        try:
            cluster = Cluster(random.Random(number), folder)
            for _ in range(asked.requests):
                request, wanted = cluster.request()
                while len(request[3]) > MAX_BODY:
                    request, wanted = cluster.request()
                got = cluster.ask(*request)
                if got != wanted:
                    print(f'{request}\nthe rules answer {wanted}\nthe program answers {got}')
                    return 1
                kind = '200' if got[0] == 200 else got[1][10:12]
                reported[kind] = reported.get(kind, 0) + 1
        finally:
            if cluster:
                cluster.ends()
            shutil.rmtree(folder)
        print(f'cluster {number}: {asked.requests} requests answered as the rules answer them:', *(f'{key} {reported[key]}' for key in sorted(reported)))
    return 0


if __name__ == '__main__':
    sys.exit(main())
