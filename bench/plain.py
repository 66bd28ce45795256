#!/usr/bin/env python3
"""Measures `druid_cluster replay` beside a plain program that does the same and is not proved (bench/plain).

plain.py [SIZE..]     5,000, 10,000 and 20,000 segments unless said otherwise; cargo and Debian's librust-serde-json-dev are needed

Both read the same lines and have to write the same bytes. For each workload a line a size: processor seconds of ours and of the plain
one, how many times as much ours takes, the same of the peak memory; and after the last size the exponent with which ours grew.
DRUID_CLUSTER names another program than the one that ./druid_cluster built.
"""
import filecmp, json, math, os, random, subprocess, sys, tempfile

from lib import PROGRAM, TOP, need, need_program, parser_of, room
from run import change, deltas, hour, many_brokers, opening, reply

REGISTRY = '/usr/share/cargo/registry'
HOURS = 8_784  # of the year 2000


def lookup(start, end):
    return {'broker': 0, 'do': 'lookup', 'interval': f'{start}/{end}', 'source': 'wiki'}


def lookups(count):
    """Lookups of a week each, and of all at the end."""
    for n in range(count):
        first = n * 24 * 7 % (HOURS - 24 * 7)
        yield lookup(hour(first), hour(first + 24 * 7))
    yield lookup('2000-01-01', '2060-01-01')


def days(count):
    yield from opening([change(hour(24 * n), hour(24 * n + 24), 0, 1) for n in range(count)])
    yield from lookups(20)


def partitions(count):
    yield from opening([change('2000-01-01', '2000-01-02', n, count) for n in range(count)])
    yield from lookups(20)


def versions(count):
    yield from opening([change(hour(24 * n), hour(24 * n + 24), 0, 1, version) for n in range(count // 3) for version in ('v1', 'v2', 'v3')])
    yield from lookups(20)


def overlap(draw, n):
    """A chunk of one hour to 30 days within a year, of a version at random."""
    length = draw.randrange(1, 24 * 30)
    first = draw.randrange(HOURS - length)
    return change(hour(first), hour(first + length), 0, 1, f'v{draw.randrange(10**6):06}-{n}')


def overlaps(count):
    draw = random.Random(1)
    yield from opening([overlap(draw, n) for n in range(count)])
    yield from lookups(200)


def overlap_deltas(count):
    draw = random.Random(1)
    held = [overlap(draw, n) for n in range(count // 2)]
    yield from opening(held)
    mark = len(held)
    for turn in range(200):
        drops = [held.pop(draw.randrange(len(held))) for _ in range(3)]
        loads = [overlap(draw, count + 2 * turn + k) for k in range(2)]
        held += loads
        yield reply(0, 0, mark + 5, mark, [*(dict(it, action='drop') for it in drops), *loads])
        mark += 5
        yield from lookups(0)


WORKLOADS = {
    'a snapshot of one-day chunks, 20 lookups': days,
    'one chunk of as many partitions': partitions,
    'three versions of everything': versions,
    '2,000 deltas of 5 over hours, a lookup each': deltas,
    'overlapping chunks, 200 lookups': overlaps,
    '200 deltas of 5 over half as many of these': overlap_deltas,
    '64 brokers, joins': lambda count: many_brokers(64, 8, count // 8, 4),
}


def build():
    """Builds the plain program and the one that measures, and gives their folder."""
    folder, target = os.path.join(TOP, 'bench', 'plain'), room('plain')
    debian = ['source.crates-io.replace-with="debian"', f'source.debian.directory="{REGISTRY}"']
    words = [it for config in debian for it in ('--config', config)]
    if subprocess.run(['cargo', 'build', '--quiet', '--release', '--offline', *words, '--target-dir', target], cwd=folder, check=False).returncode:
        sys.exit(f'{folder} is not built, as the lines above say: apt-get install librust-serde-json-dev')
    return os.path.join(target, 'release')


def measured(built, words, given, output):
    """Processor seconds and peak MiB of a program."""
    with open(given, 'rb') as source, open(output, 'wb') as to:
        done = subprocess.run([f'{built}/measure', *words], stdin=source, stdout=to, stderr=subprocess.PIPE, text=True, check=True)
    return map(float, done.stderr.split()[-2:])


def compare(built, name, lines, size, folder):
    given, ours, plain = (os.path.join(folder, it) for it in ('given', 'ours', 'plain'))
    with open(given, 'w') as file:
        file.writelines(json.dumps(it) + '\n' for it in lines(size))
    seconds, peak = measured(built, [PROGRAM, 'replay'], given, ours)
    plain_seconds, plain_peak = measured(built, [f'{built}/plain'], given, plain)
    print(f'{name:44} {size:6} {seconds:8.2f} s {plain_seconds:6.2f} s {seconds / plain_seconds:7.1f} times'
          f' {peak:7.1f} MiB {plain_peak:6.1f} MiB {peak / plain_peak:5.1f} times', flush=True)
    if not filecmp.cmp(ours, plain, shallow=False):
        sys.exit(f'the outputs differ: {ours} and {plain}')
    return seconds


def main():
    parser = parser_of(__doc__)
    parser.add_argument('sizes', nargs='*', type=int, default=[5_000, 10_000, 20_000])
    sizes = parser.parse_args().sizes
    need_program()
    need('cargo')
    built = build()
    with tempfile.TemporaryDirectory() as folder:
        for name, lines in WORKLOADS.items():
            took = [compare(built, name, lines, size, folder) for size in sizes]
            if len(sizes) > 1:
                print(f'{"":44} grows with exponent {math.log(took[-1] / took[0]) / math.log(sizes[-1] / sizes[0]):.2f}')


if __name__ == '__main__':
    main()
