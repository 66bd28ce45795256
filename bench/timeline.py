#!/usr/bin/env python3
"""Measures what a change costs a broker that holds much, as multiples of work beside it in the same run.

timeline.py [--inventory]

By `druid_cluster replay` of the built program, which the first line names (DRUID_CLUSTER has the path of another), in processor
time of the whole program, the least of three runs: a snapshot of one-hour chunks
alone (which is mostly the reading of its JSON); the same and then 2,000 deltas of 5 changes each, with a lookup of a changed
day after each; days, weeks and months in three versions over each other, with 20 lookups, beside as many chunks of one
version. With `--inventory` by the proved program of `bench/inventory` too, which is built over copies of the crates (the first
time proves them, which takes minutes; without it nothing is proved): a delta of 5 changes applied to an inventory that shares what
stays, beside a copy of all its descriptors, and in place, alone and under 20 chunks of a year each. Each at 10,000 and at 20,000
segments.
"""
import json, os, subprocess, sys, tempfile
from datetime import datetime, timedelta

from lib import PROGRAM, build, need, need_program, parser_of, run as run_program
from run import change, deltas, opening, snapshot

SIZES = (10_000, 20_000)


def day(n):
    return (datetime(2000, 1, 1) + timedelta(days=n)).strftime('%Y-%m-%d')


def spans(length, count, every, version):
    """Chunks of so many days, of which each `every`th is there."""
    return [change(day(n * length), day((n + 1) * length), 0, 1, version) for n in range(0, count // length, every)]


def versions(count):
    """Days of one version, weeks of a second over every other week, spans of 30 days of a third over every third."""
    days = count * 12 // 13
    found = spans(1, days, 1, 'v1') + spans(7, days, 2, 'v2') + spans(30, days, 3, 'v3')
    return (found + spans(1, count, 1, 'v0'))[:count]


def with_lookups(segments):
    yield from opening(segments)
    for n in range(20):
        interval = '2000-01-01/2080-01-01' if n % 2 == 0 else f'{day(700 * n)}/{day(700 * n + 31)}'
        yield {"broker": 0, "do": "lookup", "interval": interval, "source": "wiki"}


def seconds(lines):
    """The processor time of `replay` over these lines, the least of three runs."""
    with tempfile.NamedTemporaryFile('w', suffix='.jsonl') as file:
        file.writelines(json.dumps(line) + '\n' for line in lines)
        file.flush()
        found = []
        for _ in range(3):
            with open(file.name, 'rb') as given:
                child = subprocess.Popen([PROGRAM, 'replay'], stdin=given, stdout=subprocess.DEVNULL)
                _, status, used = os.wait4(child.pid, 0)
            if status:
                sys.exit(f'{PROGRAM} replay: ended with {os.waitstatus_to_exitcode(status)}')
            found.append(used.ru_utime + used.ru_stime)
    return min(found)


def replayed(count):
    hours = seconds(opening(snapshot('one-hour chunks', count)))
    yield 'snapshot of one-hour chunks, s', hours
    yield '2,000 deltas of 5 and their lookups, of the snapshot', (seconds(deltas(count)) - hours) / hours
    one, three = seconds(with_lookups(spans(1, count, 1, 'v1'))), seconds(with_lookups(versions(count)))
    yield 'days and 20 lookups, s', one
    yield 'three versions over each other, of the days', three / one


def applied(count):
    program, _ = build('inventory', ['druid_inventory', 'anyhow'], words=['100'])
    lines, _ = run_program(program, str(count))
    spent = {line.rsplit(': ', 1)[0]: int(line.rsplit(': ', 1)[1].split()[0]) for line in lines}
    apply, copy = spent['deltas of 5 changes, applied to a copy'], spent['copies of the descriptors']
    yield 'a delta of 5 applied to a copy, us', apply / 400
    yield 'of a copy of the descriptors', apply / copy
    yield 'a delta of 5 in place, us', spent['deltas of 5 changes, in place'] / 400
    yield 'the same under 20 years, us', spent['deltas of 5 changes, in place under 20 years'] / 400


def main():
    parser = parser_of(__doc__)
    parser.add_argument('--inventory', action='store_true', help='the proved program of bench/inventory too')
    parts = [replayed, applied] if parser.parse_args().inventory else [replayed]
    need_program()
    if applied in parts:
        need('rt')
    print(PROGRAM, flush=True)
    for part in parts:
        for (name, small), (_, large) in zip(*(part(count) for count in SIZES)):
            print(f'{name:54} {small:10.3f} {large:10.3f}   {large / small:6.2f} times', flush=True)


if __name__ == '__main__':
    main()
