#!/usr/bin/env python3
"""Builds the proved program of `bench/reads` and prints how fast views read: on 1, 2 and 4 threads that only read, beside as many
threads that read under a lock; and while a publisher of a node of 20,000 segments publishes as fast as it can, with the rate at
which it does.

It is built in the folder for temporary files, over copies of the crates; the first time that proves them, which takes some
minutes.
"""
from lib import build, parser_of, run

SECONDS, DELTAS, KEPT = 2, 2_000, 10_000_000


def alone(lines):
    """Prints what threads that only read did: a line of each thread tells its kind, how many there are, its reads and its microseconds."""
    rates = {}
    for kind, count, reads, spent in map(str.split, lines):
        rates.setdefault((kind, int(count)), []).append(int(reads) / int(spent))
    for (kind, count), each in rates.items():
        print(f'{kind} on {count}: {sum(each):8.2f} million reads a second, the slowest thread at '
              f'{min(each) / max(each):.2f} of the fastest', flush=True)
    for count in sorted({count for _, count in rates}):
        print(f'views beside a lock on {count}: {sum(rates["view", count]) / sum(rates["lock", count]):.2f} times as many')
    print('wanted on 4 free cores: at least 3 times as many, and the slowest thread at 0.50 or more')


def beside(lines, peak):
    """Prints what a publisher and three threads that read did."""
    reported = {name: list(map(int, words)) for name, *words in map(str.split, lines)}
    rate = {name: reported[name][0] / reported[name][1] * 1e6 for name in ('alone', 'beside')}
    print(f'publisher: {rate["alone"]:,.0f} deltas a second alone, {rate["beside"]:,.0f} beside three threads that read: '
          f'{rate["beside"] / rate["alone"]:.2f} (wanted: at least 0.80)')
    for name, what in (('read', 'a read'), ('drop', 'a read and the drop of what it gave')):
        count, half, most, nearly = reported[name]
        print(f'{what}, {count:,} times: half within {half / 1000:.2f} us, 99.9% within {most / 1000:.2f} us, '
              f'99.99% within {nearly / 1000:.2f} us' + (' (wanted: below 1,000)' if name == 'read' else ''))
    print(f'{peak:.0f} MiB of memory')


def main():
    parser_of(__doc__).parse_args()
    program, _ = build('reads', ['druid_inventory_views', 'anyhow'], words=['alone', '1'], proofs={
        'alone_on/Invariants.antt': 'AloneOn.antt.in', 'beside/Invariants.antt': 'Beside.antt.in'})
    alone(run(program, 'alone', str(SECONDS * 1000))[0])
    beside(*run(program, 'beside', str(DELTAS), str(KEPT)))


if __name__ == '__main__':
    main()
