#!/usr/bin/env python3
"""Measures nodes of up to 200,000 segments, which brokers follow in pages.

    python3 bench/pages.py [--serve [--program PATH]]

By the proved program of `bench/pages`, built over copies of the crates (the first time proves them, which takes minutes), at 50,000
and at 200,000 segments: the loads of a history, all pages of it answered, written, read, assembled and applied, deltas, and lookups
of four chunks; and how each grows, with the peak of memory beside the bytes of the pages. With `--serve` nothing is proved, but the
built program of `druid_cluster` measured: how long `serve` takes from its start to the first answer of a broker, over a node of
50,000 small segment files in one folder, and how long it takes to read these files alone.
"""
import json, os, subprocess, sys, tempfile, time

from lib import PROGRAM, build, need_program, parser_of, run
from serve import ask, free_ports, running
from make_segments import DAY, Segment, file_of

SIZES = (50_000, 200_000)
COUNTS = {'deltas of 5 changes, applied shared': 400, 'deltas of 5 changes, in place': 400, 'lookups of four chunks': 20}

FILES, WITHIN = 50_000, 600
QUERY = {'queryType': 'timeseries', 'dataSource': 'wiki', 'granularity': 'all', 'intervals': '1970-01-01/1970-01-02',
         'aggregations': [{'type': 'count', 'name': 'n'}]}


def measured(program, count):
    """What the program reports of so many segments: microseconds for each part, the bytes and the number of pages, and its peak in bytes."""
    lines, peak = run(program, str(count))
    parts = dict(line.split(': ', 1) for line in lines)
    numbers = {name: int(said.removesuffix(' us')) / COUNTS.get(name, 1) for name, said in parts.items()}
    return {**numbers, 'peak': peak * 1_048_576}


def show_pages():
    program, _ = build('pages', ['druid_sync_history', 'druid_sync_text', 'druid_inventory', 'druid_timeline', 'anyhow'], words=['100'])
    small, large = (measured(program, size) for size in SIZES)
    for name in large:
        if name not in ('pages', 'bytes', 'peak'):
            print(f'{name:40} {small[name] / 1e3:10.3f} ms {large[name] / 1e3:10.3f} ms, grows {large[name] / small[name]:.2f} times')
    for it in (small, large):
        print(f"{it['pages']:.0f} pages of {it['bytes'] / 1e6:.1f} MB in all; peak {it['peak'] / 1e6:.0f} MB, {it['peak'] / it['bytes']:.1f} times that")


def write_files(folder):
    """Segment files of one row each, as partitions of one chunk; gives their bytes."""
    total = 0
    for partition in range(FILES):
        segment = Segment('wiki', 0, DAY, 'v1', partition, 0, 1, ['d'], ['m'], [(partition, [f'v{partition % 10}'], [partition])])
        data = file_of(segment)
        total += len(data)
        with open(os.path.join(folder, segment.identifier() + '.seg'), 'wb') as file:
            file.write(data)
    return total


def read_files(folder):
    start = time.monotonic()
    for name in os.listdir(folder):
        with open(os.path.join(folder, name), 'rb') as file:
            file.read()
    return time.monotonic() - start


def show_serve(program):
    with tempfile.TemporaryDirectory() as folder:
        node = os.path.join(folder, 'n0')
        os.mkdir(node)
        total = write_files(node)
        reading = read_files(node)
        broker, at = free_ports(2)
        config = {'brokers': [{'address': f'127.0.0.1:{broker}', 'workers': 2}], 'connections': 1_000_000, 'kept': 1000, 'queries': [],
                  'turns': 1_000_000,
                  'nodes': [{'address': f'127.0.0.1:{at}', 'folder': node, 'loads': [], 'name': 'n0', 'workers': 2}]}
        path = os.path.join(folder, 'config.json')
        with open(path, 'w') as file:
            json.dump(config, file)
        start = time.monotonic()
        with running([program, 'serve', path], stdout=subprocess.DEVNULL) as child:
            status, body = 0, b''
            while status != 200 or json.loads(body) == [] or json.loads(body)[0]['result']['n'] != FILES:
                if child.poll() is not None or time.monotonic() - start > WITHIN:
                    sys.exit(f'no answer over all rows: {status} {body[:200]}')
                time.sleep(0.2)
                status, body, _ = ask(broker, 'POST', '/druid/v2/', json.dumps(QUERY), WITHIN)
            print(f'{FILES:,} files of {total / 1e6:.1f} MB: {time.monotonic() - start:.1f} s from the start to the answer, '
                  f'{reading:.1f} s to read them')


def main():
    parser = parser_of(__doc__)
    parser.add_argument('--serve', action='store_true', help='measure the built program of druid_cluster')
    parser.add_argument('--program', default=PROGRAM, help='its path, where it is another than that of this repository')
    asked = parser.parse_args()
    if asked.serve:
        need_program(asked.program)
        show_serve(asked.program)
    else:
        show_pages()


if __name__ == '__main__':
    main()
