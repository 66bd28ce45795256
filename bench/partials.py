#!/usr/bin/env python3
"""Builds the proved program of `bench/partials`, which answers queries over a segment of 100,000 rows, and prints its speed
beside that of SQLite (in memory, one thread) on the same rows, whose answers are compared. Then hostile texts of 4, 8 and 16
MiB: how long each is read until it is taken or refused.

It is built in the folder for temporary files, over copies of the crates; the first time that proves them, which takes some
minutes.
"""
import json, os, sqlite3, sys, time
from lib import build, parser_of, room, run

FILES = 'partials_files'  # The folder that has them.
ROWS = 100_000
RUNS = 5

COUNT = {'type': 'count', 'name': 'n'}
SUM = {'type': 'longSum', 'name': 's', 'fieldName': 'm0'}
GREATEST = {'type': 'longMax', 'name': 'g', 'fieldName': 'm2'}
AMONG = [f'v{k * 49:05}' for k in range(1000)]
FILTER = {'type': 'and', 'fields': [{'type': 'selector', 'dimension': 'd0', 'value': 'v00003'},
                                    {'type': 'in', 'dimension': 'd3', 'values': AMONG}]}


def query(kind, granularity, dimensions, filter=None):
    asked = {'queryType': kind, 'dataSource': 'bench', 'granularity': granularity, 'intervals': '1970-01-01/1970-01-02',
             'aggregations': [COUNT, SUM, GREATEST], 'filter': filter}
    if kind == 'groupBy':
        asked['dimensions'] = dimensions
    return asked


# What is asked here, and of SQLite.
QUERIES = [
    ('timeseries by hour', query('timeseries', 'hour', []),
     'SELECT t / 3600000 * 3600000 AS b, count(*), sum(m0), max(m2) FROM s WHERE t >= 0 AND t < 86400000 GROUP BY b ORDER BY b'),
    ('groupBy of 10 values', query('groupBy', 'all', ['d0']),
     'SELECT d0, count(*), sum(m0), max(m2) FROM s WHERE t >= 0 AND t < 86400000 GROUP BY d0 ORDER BY d0'),
    ('groupBy of 1,000 values', query('groupBy', 'all', ['d2']),
     'SELECT d2, count(*), sum(m0), max(m2) FROM s WHERE t >= 0 AND t < 86400000 GROUP BY d2 ORDER BY d2'),
    ('groupBy of 50,000 values', query('groupBy', 'all', ['d3']),
     'SELECT d3, count(*), sum(m0), max(m2) FROM s WHERE t >= 0 AND t < 86400000 GROUP BY d3 ORDER BY d3'),
    ('and of selector and in of 1,000 values', query('groupBy', 'all', ['d1'], FILTER),
     "SELECT d1, count(*), sum(m0), max(m2) FROM s WHERE t >= 0 AND t < 86400000 AND d0 = 'v00003' AND d3 IN ("
     + ','.join(f"'{v}'" for v in AMONG) + ') GROUP BY d1 ORDER BY d1'),
]


def times(program, *words):
    """The microseconds that each step took, by its name, and the peak memory in MiB."""
    lines, peak = run(program, *words)
    return {name: (int(count), int(spent)) for name, count, spent in map(str.split, lines)}, peak


def table():
    """The rows of the segment, in SQLite."""
    db = sqlite3.connect(':memory:')
    db.execute('CREATE TABLE s (t INTEGER, d0 TEXT, d1 TEXT, d2 TEXT, d3 TEXT, m0 INTEGER, m1 INTEGER, m2 INTEGER, m3 INTEGER)')
    for i in range(ROWS):
        x = (i * 2654435761 + 12345) % 2**32
        values = [f'v{v:05}' for v in (x % 10, x // 16 % 100, x // 256 % 1000, (i * 7919) % 2**32 % 50000)]
        db.execute('INSERT INTO s VALUES (?, ?, ?, ?, ?, ?, ?, ?, ?)', (i * 864, *values, x % 1000, i, x, x % 7))
    return db


def asked_of_sqlite(db, text):
    best = None
    for _ in range(RUNS):
        start = time.perf_counter()
        rows = db.execute(text).fetchall()
        spent = time.perf_counter() - start
        best = spent if best is None else min(best, spent)
    return rows, best


def same(asked, result, rows):
    """Whether the answer has the rows that SQLite has."""
    if asked['queryType'] == 'timeseries':
        ours = [tuple(row['result'][name] for name in ('n', 's', 'g')) for row in result]
        return ours == [row[1:] for row in rows]
    name = asked['dimensions'][0]
    return [(row['event'][name], *(row['event'][k] for k in ('n', 's', 'g'))) for row in result] == rows


DAY = '1970-01-01T00:00:00.000Z/1970-01-02T00:00:00.000Z'
PIECE = {'chunk': DAY, 'itvl': DAY, 'part': 0, 'ver': 'v1'}
SUBQUERY = dict(query('groupBy', 'all', ['d0']), queryIntervals=['1970-01-01/1970-01-02'],
                intervals={'type': 'segments', 'segments': [PIECE]})


def with_filter(text):
    return json.dumps(SUBQUERY).replace('"filter": null', '"filter": ' + text)


def many(part, size):
    """As many copies of the text as the size holds, with commas between them."""
    return ','.join([part] * (size // (len(part) + 1)))


# Hostile texts of about that size: of a subquery, or of an answer to one.
HOSTILE = [
    ('lists in lists', 'subquery', lambda n: '[' * (n // 2) + ']' * (n // 2)),
    ('127 lists in lists, many', 'subquery', lambda n: '[' + many('[' * 126 + ']' * 126, n) + ']'),
    ('empty filters', 'subquery', lambda n: with_filter('{"type":"and","fields":[' + many('{"type":"and","fields":[]}', n) + ']}')),
    ('values of a filter', 'subquery', lambda n: with_filter('{"type":"in","dimension":"d0","values":[' + many('"v"', n) + ']}')),
    ('doubled keys', 'subquery', lambda n: '{' + many('"queryType":"groupBy"', n) + '}'),
    ('a long number', 'subquery', lambda n: '9' * n),
    ('a long text', 'subquery', lambda n: '"' + 'x' * n + '"'),
    ('overlapping pieces', 'subquery', lambda n: json.dumps(dict(SUBQUERY, intervals={'type': 'segments', 'segments': []}))
        .replace('"segments": []', '"segments": [' + many(json.dumps(PIECE), n) + ']')),
    ('one row again and again', 'answer', lambda n: '{"missing":[],"rows":[' + many('[0,["a"],[1,2,3]]', n) + ']}'),
    ('rows of nothing', 'answer', lambda n: '{"missing":[],"rows":[' + many('[]', n) + ']}'),
    ('a piece again and again', 'answer', lambda n: '{"missing":[' + many(json.dumps(PIECE), n) + '],"rows":[]}'),
    ('doubled keys', 'answer', lambda n: '{' + many('"rows":[]', n) + '}'),
    ('long numbers', 'answer', lambda n: '{"missing":[],"rows":[' + many('[' + '9' * 1000 + ']', n) + ']}'),
]


def hostile(program):
    print(f'{"hostile text":42}{"4":>10} {"8":>10} {"16 MiB":>10}')
    texts = {kind: os.path.join(room(FILES), f'{kind}.json') for kind in ('subquery', 'answer')}
    for name, kind, made in HOSTILE:
        with open(texts['subquery'], 'w') as f:
            json.dump(SUBQUERY, f)
        spent = []
        for size in (4, 8, 16):
            with open(texts[kind], 'w') as f:
                f.write(made(size << 20))
            reported, peak = times(program, 'judge', texts['subquery'], texts['answer'])
            last = list(reported)[-1]
            spent.append(reported[last][1] / 1000)
        print(f'{kind + ": " + name:42}' + ' '.join(f'{it:7.1f} ms' for it in spent) + f'  {last}, {peak:.0f} MiB', flush=True)


def main():
    parser_of(__doc__).parse_args()
    path, answer = os.path.join(room(FILES), 'query.json'), os.path.join(room(FILES), 'result.json')
    with open(path, 'w') as f:
        json.dump(QUERIES[0][1], f)
    program, _ = build('partials', ['druid_partial_text', 'druid_partial_scan', 'druid_query_text', 'serde_json', 'anyhow'], words=[path, answer])
    db = table()
    print(f'{"":42}{"rows a second":>14} {"SQLite":>14}')
    for name, asked, text in QUERIES:
        with open(path, 'w') as f:
            json.dump(asked, f)
        runs = [times(program, path, answer) for _ in range(RUNS)]
        groups = runs[0][0]['groups'][0]
        spent = min(reported['groups'][1] for reported, _ in runs)
        rows, best = asked_of_sqlite(db, text)
        with open(answer) as f:
            if not same(asked, json.load(f), rows):
                sys.exit(f'{name}: the answers differ: {answer}')
        print(f'{name:42}{ROWS / spent * 1e6:14,.0f} {ROWS / best:14,.0f}  {groups} groups, {runs[0][1]:.0f} MiB', flush=True)
    with open(path, 'w') as f:
        json.dump(QUERIES[3][1], f)
    reported, peak = times(program, 'merge', path)
    for name, (count, spent) in reported.items():
        print(f'{name:10} {count:10,} {spent / 1000:10.1f} ms')
    print(f'{peak:.0f} MiB')
    hostile(program)


if __name__ == '__main__':
    main()
