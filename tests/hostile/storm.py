#!/usr/bin/env python3
"""Sends drawn, cut and mutated requests to a served broker and its nodes, with silent and slow clients, and looks at what is left.

storm.py [REQUESTS]     1,000,000 requests unless said otherwise, by four processes, and then 1,000 clients that misbehave

A cluster of two data nodes and a broker is served over loopback. Each request is drawn from lawful ones and spoiled in most
cases: cut at any byte, a byte changed or doubled, a header added or changed, brackets for a body, another length. Each answer has
to be nothing at all, where the message does not surely end where it says, or one whole response with a body that is JSON, and of what
docs/FORMATS.md says of such a message:

    not spoiled                                         the answer of the start
    the front of a lawful one (X1)                      nothing
    its head has no end (X1, or X4, X5)                 nothing, or 400 with X4 or X5
    its first line is whole, and asks for no query      the answer of the start; or nothing, or 400 with X4 to X7
    its first line is whole, and posts a query          200, or 400 with Q1 and so on; or nothing, or 400 with X4 to X7
    another first line                                  any of these, with Y6; 404 with NoRoute, V2 or V3; 405 with Method

Memory is there and each node answers, so 500 and 503 come to none. Then a third of 1,000 connections says nothing, a third
sends a byte a second, and a third closes in the middle of a request; and of one more at each server, which says nothing, the server has
to close the connection after 30 seconds. At the end the program has to answer as at the start, with no thread, no descriptor and no
megabyte more than after its first tenth of the requests, or 2,000, in which its threads' memory warms up. Of a program with checks of
memory (`./druid_cluster preview`), which hold memory back, the megabyte is not compared. It ends with 1 where that fails.
"""
import collections
import json
import multiprocessing
import os
import random
import re
import select
import shutil
import socket
import sys
import tempfile
import time

sys.path.insert(0, os.path.dirname(os.path.dirname(os.path.abspath(__file__))))
from served import ASK, DAY, QUERY, Cluster, Segment, has_checks, need_program, parser_of, request  # noqa: E402

PROCESSES, MISBEHAVING, STAYING, WARMING = 4, 1_000, 5, 2_000
LIMIT, LATE = 30, 15  # Seconds that a server waits for a read, and within which its close comes on a busy machine.


def rows(seed):
    draw = random.Random(seed)
    return [(draw.randrange(DAY), [draw.choice([None, '', 'a', 'b', 'é'])], [draw.choice([None, 0, 1, 2**63 - 1])]) for _ in range(500)]


def segments():
    one = Segment('w', 0, DAY, 'v1', 0, 1, 0, ['d'], ['m'], rows(1))
    return [[one, Segment('w', 0, DAY // 2, 'v2', 0, 1, 0, ['d'], ['m'], rows_before(DAY // 2))], [one]]


def rows_before(end):
    return [(time % end, texts, numbers) for time, texts, numbers in rows(2)]


def lawful():
    """Requests with the server that they are for: 0 the broker, 1 and 2 its nodes."""
    query = {'queryType': 'groupBy', 'dataSource': 'w', 'granularity': 'hour', 'intervals': '1970-01-01/1970-01-02', 'dimensions': ['d'],
             'aggregations': [{'type': 'count', 'name': 'n'}, {'type': 'longSum', 'name': 's', 'fieldName': 'm'}],
             'filter': {'type': 'not', 'field': {'type': 'selector', 'dimension': 'd', 'value': 'a'}}}
    day = '1970-01-01T00:00:00.000Z/1970-01-02T00:00:00.000Z'
    asked = {**query, 'intervals': {'type': 'segments', 'segments': [{'chunk': day, 'itvl': day, 'part': 0, 'ver': 'v1'}]}, 'queryIntervals': [day]}
    found = [(0, request('POST', QUERY, json.dumps(it).encode())) for it in
             (query, {**query, 'queryType': 'timeseries', 'granularity': 'all'}, {**query, 'dataSource': 'nowhere'})]
    found += [(0, request('GET', it)) for it in ('/status/health', '/druid/v2/datasources', '/druid/broker/v1/loadstatus',
                                                 '/druid-internal/v1/inventory/0', '/druid-internal/v1/inventory/7', '/nowhere',
                                                 '/druid-internal/v1/inventory/0?counter=2&hash=1&page=0', '/druid-internal/v1/inventory/7?page=0')]
    found += [(node, it) for node in (1, 2) for it in (
        request('POST', QUERY, json.dumps(asked).encode()), request('GET', ASK), request('GET', ASK + '?counter=1&hash=1'),
        request('GET', ASK + '?counter=-1'), request('GET', ASK + '?counter=2&hash=1&page=0'), request('PUT', ASK), request('GET', '/status/health'))]
    return found


def spoiled(draw, data):
    """The bytes with a fault or some; None in place of a kind that does not fit."""
    for _ in range(draw.choice([1, 1, 1, 2, 4])):
        place, kind = draw.randrange(len(data) + 1) if data else 0, draw.randrange(9)
        if kind == 0:
            data = data[:place]
        elif kind == 1:
            data = data[:place] + bytes([draw.randrange(256)]) + data[place + 1:]
        elif kind == 2:
            data = data[:place] + data[max(0, place - draw.randrange(1, 60)):]
        elif kind == 3:
            data = data[:place] + data[place + draw.randrange(1, 20):]
        elif kind == 4:
            data = data.replace(b'\r\n', b'\r\n' + draw.choice([b'A: b\r\n', b'Transfer-Encoding: chunked\r\n', b'Content-Length: 5\r\n', b'X:\x00\r\n']), draw.randrange(1, 70))
        elif kind == 5:
            data = data.replace(b'Content-Length: ', draw.choice([b'Content-Length: 9', b'Content-Length: -', b'content-length:', b'Content-Length: 1677721']))
        elif kind == 6:
            data = draw.choice([b'\n' * 20_000, b'GET ' + b'/' * 20_000, b'', b'\x00' * 300, data + data])
        elif kind == 7:
            head, _, _ = data.partition(b'\r\n\r\n')
            body = draw.choice([b'[' * 200 + b']' * 200, b'{"a":' * 300, b'\xff\xfe', b'null', b'1e999', b'"' + b'\\u0000' * 50 + b'"'])
            data = head.rsplit(b'Content-Length', 1)[0] + f'Content-Length: {len(body)}\r\n\r\n'.encode() + body
        else:
            data = data.replace(draw.choice([b'GET', b'POST', b'HTTP/1.1', b'/druid', b'1970', b'queryType', b'v1', b'null']),
                                draw.choice([b'HEAD', b'', b'HTTP/9.9', b'/', b'9999', b'\xc3', b'0', b'[]']), 1)
    return data


def talk(port, data):
    """What comes back, where the client ends its part after these bytes."""
    with socket.create_connection(('127.0.0.1', port), timeout=60) as stream:
        try:
            stream.sendall(data)
            stream.shutdown(socket.SHUT_WR)
            return b''.join(iter(lambda: stream.recv(65_536), b''))
        except TimeoutError:
            raise SystemExit(f'no end of an answer within 60 s, to {data[:300]}') from None
        except OSError:
            # What follows the first request of a connection stays unread, and a server that closes then resets it.
            return None


def allowed(given, data, wanted):
    """What may be written to a message that was made of a lawful one, with that one's answer: a form of a status and a body. b'' is nothing."""
    line = given[:given.index(b'\r\n') + 2]
    if given.startswith(data):
        return rb''
    if not re.search(rb'\n\r?\n', data):
        return rb'400 \{"error":"X[45]"\}'
    if data.startswith(line):
        same = re.escape(wanted[9:12] + b' ' + wanted.partition(b'\r\n\r\n')[2])
        return rb'400 \{"error":"X[4-7]"\}|' + (rb'200 .*|400 \{"error":"Q\d"[^{}]*\}' if line.startswith(b'POST') else same)
    return rb'200 .*|400 \{"error":"(X[4-7]|Y6|Q\d)"[^{}]*\}|404 \{"error":"(NoRoute|V2|V3)"\}|405 \{"error":"Method"\}'


def is_whole(data):
    """Whether a message surely ends where it says: it begins, its head has an end, and what follows has each length that the head may mean."""
    head, end, body = re.match(rb'(.*?)(\n\r?\n|$)(.*)', data, re.S).groups()
    lengths = re.findall(rb'content-length[^\n0-9]*([0-9]*)', head, re.I)
    return bool(re.match(rb'[A-Z]', data) and end and all(it and int(it) <= len(body) for it in lengths))


def fault_of(answer, given, data, wanted):
    """What is wrong with an answer; None where it is nothing at all, or one whole response, and may come to such a message."""
    if not answer:
        return 'it is nothing, to a whole message' if answer == b'' and is_whole(data) else None
    head, gap, body = answer.partition(b'\r\n\r\n')
    lines = head.split(b'\r\n')
    words = lines[0].split()
    if not gap or words[0] != b'HTTP/1.1':
        return 'it is no response'
    if int(next(it.split(b':')[1] for it in lines if it.startswith(b'Content-Length'))) != len(body):
        return 'it has another length than it says'
    json.loads(body)
    form = allowed(given, data, wanted)
    return None if re.fullmatch(form, words[1] + b' ' + body, re.S) else f'no such message is answered so, but {form}'


def storm(ports, seed, many, wanted, results):
    draw, count, given = random.Random(seed), collections.Counter(), lawful()
    for number in range(many):
        place = draw.randrange(len(given))
        server, data = given[place]
        sent = spoiled(draw, data) if draw.random() < .85 else data
        answer = talk(ports[server], sent)
        fault = fault_of(answer, data, sent, wanted[place]) if sent != data else None if answer == wanted[place] else f'it was {wanted[place]}'
        if fault:
            results.put((count, f'request {number} of {seed}, {sent[:2_000]}: {answer}: {fault}'))
            return
        count['reset' if answer is None else answer[9:12].decode() or 'nothing'] += 1
    results.put((count, None))


def storm_whole(ports, seed, many, wanted, results):
    """The same, which says so where it ends by an exception."""
    try:
        storm(ports, seed, many, wanted, results)
    except BaseException as fault:
        results.put((collections.Counter(), f'{seed}: {fault!r}'))


def run_storm(ports, many, wanted, part):
    results = multiprocessing.Queue()
    parts = [multiprocessing.Process(target=storm_whole, args=(ports, f'storm {part} {it}', many // PROCESSES, wanted, results)) for it in range(PROCESSES)]
    for it in parts:
        it.start()
    found = [results.get() for _ in parts]
    for it in parts:
        it.join()
    for _, fault in found:
        if fault:
            raise SystemExit(fault)
    return sum((count for count, _ in found), collections.Counter())


def misbehave(ports):
    """So many connections that say nothing, send a byte a second, or close in the middle."""
    data, streams = request('GET', '/status/health'), []
    for number in range(MISBEHAVING):
        stream = socket.socket()
        stream.setblocking(False)
        stream.connect_ex(('127.0.0.1', ports[number % len(ports)]))
        streams.append(stream)
    begun, sent = time.monotonic(), 0
    while time.monotonic() < begun + STAYING:
        _, ready, _ = select.select([], [it for it in streams[1::3] if it.fileno() < 1_000], [], 0)
        for stream in ready:
            try:
                stream.send(data[sent:sent + 1])
            except OSError:
                pass
        if not sent:
            for stream in streams[2::3]:
                try:
                    stream.send(data[:20])
                except OSError:
                    pass
                stream.close()
        sent += 1
        time.sleep(1)
    for stream in streams:
        stream.close()


def closes_silent(ports):
    """Whether each server closes a connection on which nothing is said, after its limit."""
    streams, begun = [socket.create_connection(('127.0.0.1', it), timeout=LIMIT + LATE) for it in ports], time.monotonic()
    try:
        return all(stream.recv(1) == b'' and time.monotonic() - begun > LIMIT - 1 for stream in streams)
    except OSError:
        return False
    finally:
        for it in streams:
            it.close()


def main():
    parser = parser_of(__doc__)
    parser.add_argument('requests', nargs='?', type=int, default=1_000_000)
    many = parser.parse_args().requests
    need_program()
    folder = tempfile.mkdtemp(prefix='druid_cluster_storm_')
    cluster = Cluster(folder, segments())
    try:
        cluster.start().stands()
        ports = [cluster.broker, *cluster.nodes]
        wanted = [talk(ports[server], data) for server, data in lawful()]
        run_storm(ports, max(many // 10, WARMING), wanted, 0)
        before, begun, count, memory = cluster.uses(), time.monotonic(), collections.Counter(), []
        for part in range(1, 10):
            count += run_storm(ports, many // 10, wanted, part)
            memory.append(f'{cluster.uses()[0]:,}')
        print('memory after each tenth, KiB:', ', '.join([f'{before[0]:,}', *memory]))
        print(f'{sum(count.values()):,} requests in {time.monotonic() - begun:.0f} s:', ', '.join(f'{count[it]:,} {it}' for it in sorted(count)))
        misbehave(ports)
        time.sleep(2)
        are_closed = closes_silent(ports)
        again = [talk(ports[server], data) for server, data in lawful()]
        after = cluster.uses()
        print(f'{MISBEHAVING:,} clients that misbehaved; memory {before[0]:,} KiB, then {after[0]:,}; threads {before[1]}, {after[1]}; open files {before[2]}, {after[2]}')
        same = {'answers': again == wanted, 'the limit of a silent client': are_closed, 'memory': has_checks() or after[0] <= before[0] + 1_024,
                'threads': after[1] == before[1], 'open files': after[2] == before[2]}
        changed = [what for what, is_same in same.items() if not is_same]
        if changed:
            print('not as it should be:', ', '.join(changed))
        return 1 if changed else 0
    finally:
        cluster.ends()
        shutil.rmtree(folder, ignore_errors=True)


if __name__ == '__main__':
    sys.exit(main())
