#!/usr/bin/env python3
"""Asks `druid_cluster serve` and ClickHouse the same queries over the same rows, both over HTTP on 127.0.0.1.

    python3 bench/queries.py [--program PATH] [--seconds N] [--threads N]

One broker over one data node with 1,000,000 rows in ten segments of a day each: three dimensions of 10, 1,000 and 50,000
values, two metrics. ClickHouse has them in a `MergeTree` by time, a part for each day. Both work on so many threads for each query,
one unless said otherwise.
The answers are compared. Then for each query the median of five times, and the answers a second that four clients get, also as
a multiple and a share of ClickHouse's; and how long the node took to stand. Nothing but the answers is checked.

It needs `clickhouse-server`: apt-get install clickhouse-server.
"""
import contextlib, http.client, json, os, statistics, subprocess, sys, tempfile, threading, time, urllib.parse

from lib import PROGRAM, need, need_program, parser_of
from make_segments import DAY, Segment, file_of
from serve import ask, free_ports, running, wait_for

FIRST, DAYS, ROWS, SOURCE = 19_723, 10, 100_000, 'bench'
RUNS, CLIENTS, WORKERS = 5, 4, 4
AMONG = [f'p{k * 19 % 1_000:03}' for k in range(50)]
ALL, ONE = (FIRST, FIRST + DAYS), (FIRST + 3, FIRST + 4)

COUNT, SUM = {'type': 'count', 'name': 'n'}, {'type': 'longSum', 'name': 's', 'fieldName': 'm0'}
FILTER = {'type': 'and', 'fields': [{'type': 'selector', 'dimension': 'd0', 'value': 'c3'},
                                    {'type': 'in', 'dimension': 'd1', 'values': AMONG}]}

CONFIG = """<yandex>
<logger><level>warning</level><log>{folder}/log</log><errorlog>{folder}/errors</errorlog></logger>
<http_port>{http}</http_port><tcp_port>{tcp}</tcp_port><listen_host>127.0.0.1</listen_host>
<path>{folder}/</path><tmp_path>{folder}/tmp/</tmp_path><users_config>{folder}/users.xml</users_config>
<default_profile>default</default_profile><default_database>default</default_database>
<mark_cache_size>536870912</mark_cache_size><max_concurrent_queries>100</max_concurrent_queries>
</yandex>
"""

USERS = """<yandex>
<profiles><default><max_threads>{threads}</max_threads><log_queries>0</log_queries></default></profiles>
<users><default><password></password><networks><ip>127.0.0.1</ip></networks><profile>default</profile><quota>default</quota></default></users>
<quotas><default></default></quotas>
</yandex>
"""


# The rows, and the queries of both.

def rows_of(day):
    for i in range(ROWS):
        x = ((day * ROWS + i) * 2654435761 + 12345) % 2**32
        values = [f'c{x % 10}', f'p{x // 16 % 1_000:03}', f'u{(day * ROWS + i) * 7919 % 50_000:05}']
        yield (FIRST + day) * DAY + i * DAY // ROWS, values, [x % 1_000, i]


def query(kind, granularity, dimensions, days, filter=None):
    first, last = (time.strftime('%Y-%m-%d', time.gmtime(day * DAY // 1000)) for day in days)
    asked = {'queryType': kind, 'dataSource': SOURCE, 'granularity': granularity, 'intervals': f'{first}/{last}',
             'aggregations': [COUNT, SUM], 'filter': filter}
    return asked | ({'dimensions': dimensions} if kind == 'groupBy' else {})


def select(group, days, more=''):
    first, last = (day * DAY // 1000 for day in days)
    return (f'SELECT {group} AS g, count(), sum(m0) FROM {SOURCE} WHERE t >= toDateTime({first}) AND t < toDateTime({last}){more} '
            f'GROUP BY g ORDER BY g FORMAT JSONCompact')


def among():
    values = ', '.join(f"'{value}'" for value in AMONG)
    return f" AND d0 = 'c3' AND d1 IN ({values})"


QUERIES = [
    ('timeseries by hour over all', query('timeseries', 'hour', [], ALL), select('toUInt32(toStartOfHour(t))', ALL)),
    ('the same over one day', query('timeseries', 'hour', [], ONE), select('toUInt32(toStartOfHour(t))', ONE)),
    ('groupBy of 10 values', query('groupBy', 'all', ['d0'], ALL), select('d0', ALL)),
    ('groupBy of 1,000 values', query('groupBy', 'all', ['d1'], ALL), select('d1', ALL)),
    ('groupBy of 50,000 values', query('groupBy', 'all', ['d2'], ALL), select('d2', ALL)),
    ('and of a selector and an in, by day', query('timeseries', 'day', [], ALL, FILTER),
     select('toUInt32(toStartOfDay(t))', ALL, among())),
]


# What is run.

def write_segments(folder):
    os.makedirs(folder)
    for day in range(DAYS):
        segment = Segment(SOURCE, (FIRST + day) * DAY, (FIRST + day + 1) * DAY, 'v1', 0, 1, 0, ['d0', 'd1', 'd2'], ['m0', 'm1'], list(rows_of(day)))
        with open(os.path.join(folder, segment.identifier() + '.seg'), 'wb') as file:
            file.write(file_of(segment))


@contextlib.contextmanager
def ours(program, folder, threads):
    write_segments(os.path.join(folder, 'n0'))
    broker, node = free_ports(2)
    config = {'brokers': [{'address': f'127.0.0.1:{broker}', 'workers': WORKERS}], 'connections': 1_000_000, 'kept': 100, 'queries': [],
              'turns': 1, 'nodes': [{'address': f'127.0.0.1:{node}', 'folder': os.path.join(folder, 'n0'), 'loads': [], 'name': 'n0',
                                     'workers': WORKERS, 'threads': threads}]}
    path = os.path.join(folder, 'config.json')
    with open(path, 'w') as file:
        json.dump(config, file)
    start = time.monotonic()
    with running([program, 'serve', path]) as child:
        wait_for(child, broker)
        print(f'{DAYS * ROWS:,} rows stand after {time.monotonic() - start:.2f} s', flush=True)
        yield broker


def tell(port, text, body=None):
    """What ClickHouse answers to a statement."""
    path = '/?' + urllib.parse.urlencode({'query': text})
    status, answer, _ = ask(port, 'POST', path, body or b'')
    if status != 200:
        sys.exit(f'ClickHouse: {status} {answer[:500]}')
    return answer


@contextlib.contextmanager
def theirs(folder, threads):
    os.makedirs(os.path.join(folder, 'tmp'))
    port, tcp = free_ports(2)
    for name, text in (('config.xml', CONFIG), ('users.xml', USERS)):
        with open(os.path.join(folder, name), 'w') as file:
            file.write(text.format(folder=folder, http=port, tcp=tcp, threads=threads))
    with running(['clickhouse-server', f'--config-file={folder}/config.xml'], stdout=subprocess.DEVNULL, stderr=subprocess.DEVNULL):
        end = time.monotonic() + 60
        while ask(port, 'GET', '/ping', limit=1)[0] != 200:
            if time.monotonic() > end:
                sys.exit('ClickHouse does not stand')
            time.sleep(0.2)
        tell(port, f'CREATE TABLE {SOURCE} (t DateTime, d0 String, d1 String, d2 String, m0 Int64, m1 Int64) ENGINE = MergeTree() '
                   'PARTITION BY toYYYYMMDD(t) ORDER BY t')
        for day in range(DAYS):
            lines = (f"{at // 1000}\t{chr(9).join(values)}\t{m0}\t{m1}\n" for at, values, (m0, m1) in rows_of(day))
            tell(port, f'INSERT INTO {SOURCE} FORMAT TabSeparated', ''.join(lines).encode())
        yield port


# What is measured.

def posted(port, path, body):
    link = http.client.HTTPConnection('127.0.0.1', port, timeout=120)
    try:
        link.request('POST', path, body, {'Content-Type': 'application/json', 'Connection': 'close'})
        answer = link.getresponse()
        text = answer.read()
    finally:
        link.close()
    if answer.status != 200:
        sys.exit(f'{answer.status}: {text[:200]}')
    return text


def median(asked):
    spent = []
    for _ in range(RUNS + 1):
        start = time.monotonic()
        posted(*asked)
        spent.append(time.monotonic() - start)
    return statistics.median(spent[1:])


def rate(asked, seconds):
    """The answers a second that so many clients get together."""
    end, counts = time.monotonic() + seconds, []

    def client():
        count = 0
        while time.monotonic() < end:
            posted(*asked)
            count += 1
        counts.append(count)

    start = time.monotonic()
    threads = [threading.Thread(target=client) for _ in range(CLIENTS)]
    for thread in threads:
        thread.start()
    for thread in threads:
        thread.join()
    return sum(counts) / (time.monotonic() - start)


def compare(name, asked, text, answers):
    """Ends where the two differ. An hour that has no row is in neither."""
    found = json.loads(answers)
    if asked['queryType'] == 'groupBy':
        dimension = asked['dimensions'][0]
        mine = [(row['event'][dimension], row['event']['n'], row['event']['s']) for row in found]
    else:
        mine = [(row['timestamp'], row['result']['n'], row['result']['s']) for row in found]
    other = [(time.strftime('%Y-%m-%dT%H:%M:%S.000Z', time.gmtime(int(g))) if asked['queryType'] != 'groupBy' else g, int(n), int(s))
             for g, n, s in json.loads(text)['data']]
    if mine != other:
        sys.exit(f'{name}: the answers differ: {mine[:3]} {other[:3]}')


def main():
    parser = parser_of(__doc__)
    parser.add_argument('--program', default=PROGRAM, help='the built program, that of this repository unless said otherwise')
    parser.add_argument('--seconds', type=int, default=5, help='how long four clients ask')
    parser.add_argument('--threads', type=int, default=1, help='on how many threads a query may work')
    given = parser.parse_args()
    need_program(given.program)
    need('clickhouse-server')
    with tempfile.TemporaryDirectory() as folder, ours(given.program, os.path.join(folder, 'ours'), given.threads) as broker, \
            theirs(os.path.join(folder, 'theirs'), given.threads) as house:
        for name, asked, text in QUERIES:
            mine = broker, '/druid/v2/', json.dumps(asked)
            other = house, '/?', text
            compare(name, asked, posted(*other), posted(*mine))
            one, one_other = median(mine), median(other)
            four, four_other = rate(mine, given.seconds), rate(other, given.seconds)
            print(f'{name:36} {one * 1e3:8.1f} ms ({one / one_other:5.2f} of ClickHouse), four clients {four:8.1f} a second '
                  f'({four / four_other:5.2f} of ClickHouse)', flush=True)


if __name__ == '__main__':
    main()
