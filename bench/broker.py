#!/usr/bin/env python3
"""Builds the proved program of `bench/broker`: a broker over 8 data nodes of 100 segments of 10,000 rows each in one process, two
replicas of each segment. Prints how many queries a second it answers, the 50th and 99th percentile of their times, the share of
each part, and how long plans over 5,000, 10,000 and 20,000 visible pieces take.

It is built in the folder for temporary files, over copies of the crates; the first time that proves them, which takes some
minutes.
"""
from lib import build, parser_of, run


def times_of(lines):
    """What each line tells: a name, and a time in microseconds."""
    return [(name, int(spent)) for name, spent in map(str.split, lines)]


def main():
    parser_of(__doc__).parse_args()
    program, _ = build('broker', ['druid_broker', 'druid_broker_follow', 'druid_node', 'anyhow'], words=['plan'], proofs={
        'AnswerLemmas.antt': 'AnswerLemmas.antt.in', 'LinkLemmas.antt': 'LinkLemmas.antt.in',
        'all/Invariants.antt': 'Invariants.antt.in', 'node/Invariants.antt': 'Node.antt.in',
        'partial_in/Answers.antt': 'PartialIn.antt.in'})
    lines, peak = run(program, 'plan')
    for name, spent in times_of(lines):
        kind, pairs = name.split(':')
        print(f'plan, {kind:10} {int(pairs):7,} pairs {spent / 1000:9.1f} ms', flush=True)
    lines, peak = run(program, 'all')
    reported = times_of(lines)
    for kind in ('hours', 'day', 'groups'):
        times = sorted(spent for name, spent in reported if name == kind)
        whole = sum(times) / len(times)
        parts = {name.split(':')[1]: spent for name, spent in reported if name.startswith(kind + ':')}
        print(f'{kind:8} {1e6 / whole:8.1f} a second, half within {times[len(times) // 2] / 1000:.1f} ms, 99% within '
              f'{times[(len(times) * 99 - 1) // 100] / 1000:.1f} ms, {parts.pop("pairs"):,} pairs; '
              + ', '.join(f'{name} {spent / 1000:.1f} ms' for name, spent in parts.items()), flush=True)
    print(f'{peak:.0f} MiB of memory')


if __name__ == '__main__':
    main()
