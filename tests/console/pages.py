#!/usr/bin/env python3
"""Compares what the console shows of a node that a broker gives in pages, as the node does, with the segments of that node.

    python3 tests/console/pages.py            # some seconds

The broker and the node are a short one in Python, which answers what docs/FORMATS.md says of inventories, but for pages of 40 segments
in the place of 20,000; and it can move on between two pages, once or each time. It needs the built program, whose `replay` says what is visible,
and no browser. It ends with 1 where the console shows anything else, or shows a part and does not say so.
"""
import contextlib
import http.server
import json
import sys
import threading
import urllib.parse

from served import PROGRAM, exchange, need_program, parser_of
import console

PAGE, PARTITIONS, BEGUN = 40, 30, 90
DAY = '2024-01-01T00:00:00.000Z/2024-01-02T00:00:00.000Z'


def load(source, partition):
    return {'action': 'load', 'dataSource': source, 'interval': DAY, 'shardSpec': {'partitionNum': partition, 'partitions': PARTITIONS, 'type': 'numbered'},
            'size': 0, 'version': 'v1'}


def segments():
    """By identifier text, a chunk of each of three sources, whose core partitions begin on one page and end on the next but for the first."""
    return [load(source, it) for source in 'abc' for it in sorted(range(PARTITIONS), key=lambda it: f'_{it}' if it else '')]


class Broker(http.server.ThreadingHTTPServer):
    """Knows one node. It moves on by a mark each time that this page is asked for, so many times."""

    daemon_threads = True

    def __init__(self):
        super().__init__(('127.0.0.1', 0), Answers)
        self.segments, self.count = segments(), BEGUN
        self.moves_at, self.moves = None, 0
        threading.Thread(target=self.serve_forever, daemon=True).start()

    def reply(self, asked):
        if self.moves and asked.get('page') == str(self.moves_at):
            self.count, self.moves = self.count + 1, self.moves - 1
        reply = {'counter': {'counter': self.count, 'hash': 7}, 'from': None, 'requests': [], 'resetCause': None, 'resetCounter': False}
        if asked and asked['counter'] != str(self.count):
            return {**reply, 'resetCause': 'TooOld', 'resetCounter': True}
        if asked and 'page' not in asked:
            return {**reply, 'from': reply['counter']}
        page = int(asked.get('page', 0))
        return {**reply, 'page': page, 'pages': -(-len(self.segments) // PAGE), 'requests': self.segments[page * PAGE:(page + 1) * PAGE]}


class Answers(http.server.BaseHTTPRequestHandler):
    def do_GET(self):
        path, _, words = self.path.partition('?')
        is_known = path in ('/druid-internal/v1/inventory/0', '/druid-internal/v1/segments')
        body = b'true' if path == '/status/health' else json.dumps(self.server.reply(dict(urllib.parse.parse_qsl(words))) if is_known else {'error': 'V2'}).encode()
        self.send_response(200 if is_known or body == b'true' else 404)
        self.send_header('Content-Length', str(len(body)))
        self.end_headers()
        self.wfile.write(body)

    def log_message(self, *_):
        pass


@contextlib.contextmanager
def console_at(broker):
    """The address of a console over the broker, which is the node too."""
    here = f'127.0.0.1:{broker.server_port}'
    config = {'brokers': [{'address': here}], 'nodes': [{'name': 'n0', 'address': here, 'folder': '.'}],
              'connections': 1_000_000}
    server = console.Console(0, config, PROGRAM)
    threading.Thread(target=server.serve_forever, daemon=True).start()
    try:
        yield f'127.0.0.1:{server.server_port}'
    finally:
        server.shutdown()
        server.server_close()


def shown(address):
    """What the page gets: of each source how many chunks are in which state, with how many partitions; which parts are lost; connections."""
    status, body = exchange(address, '/api/brokers?known=', Host=address)
    answer = json.loads(body)
    if status != 200 or 'sources' not in answer:
        return f'{status} {body[:300]}'
    counts = {}
    for source in answer['sources']:
        for _, _, _, _, state, partitions in source['chunks']:
            count, members = counts.get((source['source'], state), (0, 0))
            counts[source['source'], state] = count + 1, members + len(partitions)
    return counts, answer.get('parts'), answer.get('connections')


def node_shown(address):
    """Whether the node answers, how many segments it has and its mark."""
    node, = json.loads(exchange(address, '/api/nodes', Host=address)[1])['nodes']
    return node['answers'], node.get('segments'), node.get('mark') or node.get('fault')


WHOLE = {(source, 'visible'): (1, PARTITIONS) for source in 'abc'}
ONE_PAGE = {('a', 'visible'): (1, 30), ('b', 'incomplete'): (1, 10)}
TWO_PAGES = {('a', 'visible'): (1, 30), ('b', 'visible'): (1, 30), ('c', 'incomplete'): (1, 20)}
LONG, SHORT = console.MAX_LINE, 12_000  # Lines of `replay`: the short one holds most of the segments, and the others are deltas.
CASES = [
    ('all pages', LONG, None, 0, (WHOLE, [], 3)),
    ('the broker moves on once, at page 2', SHORT, 2, 1, (WHOLE, [], 6)),
    ('the broker moves on each time, at page 1', LONG, 1, 100, (ONE_PAGE, [{'node': 'n0', 'pages': 1, 'of': 3}], 6)),
    ('the broker moves on each time, at page 2', LONG, 2, 100, (TWO_PAGES, [{'node': 'n0', 'pages': 2, 'of': 3}], 9)),
]


def main():
    parser_of(__doc__).parse_args()
    need_program()
    broker, failed = Broker(), 0
    with console_at(broker) as address:
        console.FRESH = 0
        for name in ('the node in pages', 'the node at the same mark'):
            found, wanted = node_shown(address), (True, 3 * PARTITIONS, {'count': str(BEGUN), 'incarnation': '7'})
            failed += found != wanted
            print(f'ok {name}' if found == wanted else f'FAILED {name}: the console shows {found}, and the node has {wanted}', flush=True)
        for name, line, page, moves, wanted in CASES:
            console.MAX_LINE, broker.moves_at, broker.moves = line, page, moves
            found = shown(address)
            failed += found != wanted
            print(f'ok {name}' if found == wanted else f'FAILED {name}: the console shows {found}, and the broker has {wanted}', flush=True)
    print(f'{failed} failed')
    return 1 if failed else 0


if __name__ == '__main__':
    sys.exit(main())
