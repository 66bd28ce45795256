#!/usr/bin/env python3
"""Sends a broker queries that pass each of the three limits of 16 MiB: a node's answer, the broker's answer, and a question to a node.

ceilings.py

Beside a query that just passes a limit stands one that does not, and is answered whole: README (Limits) says what is answered where the
limit begins. The log has to tell which node's answer met a limit, and which question to one. 120,000 segment files of a row are written
for the last; it takes minutes. It ends with 1 where an answer differs, or the log.
"""
import json
import os
import shutil
import sys
import tempfile
import time

TESTS = os.path.dirname(os.path.dirname(os.path.abspath(__file__)))
sys.path[:0] = [TESTS]
from served import DAY, QUERY, Cluster, Segment, exchange, need_program, parser_of  # noqa: E402

LIMIT, MINUTE = 1 << 24, 60_000
GROUPS, FEW, SEGMENTS = 100_000, 10_000, 6  # Groups of a whole segment, of a small one; segments of one node's answer.
MINUTES = 120_000
COUNT = {'type': 'count', 'name': 'n'}
TOO_LARGE = 500, {'error': 'TooLarge'}
LOGGED, WITHIN = [('TooLarge', 'n0', 1), ('X7', 'n1', 1)], 20  # What met a limit, with which node, how often; seconds until it is logged.


def grouped(day, groups):
    """A day's segment of so many rows, each a group of its own."""
    rows = [(day * DAY, [f'{day}{number:019}'], [1]) for number in range(groups)]
    return Segment('groups', day * DAY, (day + 1) * DAY, 'v1', 0, 1, 0, ['d'], ['m'], rows)


def minute(number):
    """A minute's segment of one row."""
    return Segment('minutes', number * MINUTE, (number + 1) * MINUTE, 'v1', 0, 1, 0, ['d'], ['m'], [(number * MINUTE, ['a'], [1])])


def instant(milliseconds):
    days, rest = divmod(milliseconds, DAY)
    whole = [31, 28, 31, 30, 31, 30, 31, 31, 30, 31, 30, 31]  # Of 1970, where all of this lies.
    month = 0
    while days >= whole[month]:
        days, month = days - whole[month], month + 1
    return f'1970-{month + 1:02}-{days + 1:02}T{rest // 3_600_000:02}:{rest // MINUTE % 60:02}'


def asked(port, source, start, end, **more):
    query = {'queryType': 'timeseries', 'dataSource': source, 'granularity': 'all', 'intervals': f'{instant(start)}/{instant(end)}',
             'aggregations': [COUNT], **more}
    status, body = exchange(port, 'POST', QUERY, json.dumps(query).encode(), wait=300)
    return status, json.loads(body)


def by_group(port, first, last):
    return asked(port, 'groups', first * DAY, (last + 1) * DAY, queryType='groupBy', dimensions=['d'])


def faults(cluster):
    """What is answered otherwise than README says."""
    many = range(SEGMENTS)
    port, small = cluster.broker, SEGMENTS
    status, answer = by_group(port, many[0], many[-1])
    slices = sorted(it['itvl'] for it in answer.get('missing', []))
    if (status, answer.get('error'), answer.get('partial'), len(slices), len(set(slices))) != (503, 'SegmentsMissing', [], SEGMENTS, SEGMENTS):
        yield f'an answer of a node above 16 MiB: {status}, {str(answer)[:200]}'
    if by_group(port, 0, 1) != TOO_LARGE:
        yield 'an answer of the broker above 16 MiB'
    for counted, (status, answer) in ((GROUPS, by_group(port, 0, 0)), (FEW, by_group(port, small, small))):
        if (status, len(answer)) != (200, counted) or any(row['event']['n'] != 1 for row in answer):
            yield f'an answer of {counted} groups: {status}, {len(answer)} rows'
    if asked(port, 'minutes', 0, MINUTES * MINUTE) != TOO_LARGE:
        yield 'a question to a node above 16 MiB'
    for minutes in (1_000, 100_000):
        status, answer = asked(port, 'minutes', 0, minutes * MINUTE)
        if (status, [row['result'] for row in answer]) != (200, [{'n': minutes}]):
            yield f'a question of {minutes} slices: {status}, {str(answer)[:200]}'


def logged(path):
    """What met a limit, by the log: its code, the node and how often."""
    with open(path, encoding='utf-8') as file:
        events = [json.loads(line) for line in file if line.startswith('{') and line.endswith('}\n')]
    return sorted((it['code'], it['node'], it['exchanges']) for it in events if it['event'] == 'oversize')


def log_faults(path):
    end = time.monotonic() + WITHIN
    while logged(path) != LOGGED and time.monotonic() < end:
        time.sleep(.2)
    if logged(path) != LOGGED:
        yield f'the log tells of {logged(path)}'


def main():
    parser_of(__doc__).parse_args()
    need_program()
    folder = tempfile.mkdtemp(prefix='druid_cluster_ceilings_')
    held = [[grouped(day, GROUPS) for day in range(SEGMENTS)] + [grouped(SEGMENTS, FEW)], [minute(number) for number in range(MINUTES)]]
    cluster, log = Cluster(folder, held, environment={'DRUID_CLUSTER_LOG': 'info'}), f'{folder}/log'
    try:
        with open(log, 'w', encoding='utf-8') as cluster.errors:
            found = list(faults(cluster.start().stands(within=600)))
        found += log_faults(log)
    finally:
        cluster.ends()
        shutil.rmtree(folder)
    for fault in found:
        print(fault)
    print(f'7 answers and the log, {len(found)} faults')
    return 1 if found else 0


if __name__ == '__main__':
    sys.exit(main())
