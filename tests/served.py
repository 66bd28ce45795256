"""What the tests beside the gate share: a cluster that is served in a folder of the machine's, and exchanges with it."""
import contextlib
import json
import os
import socket
import subprocess
import sys
import time

TOP = os.path.dirname(os.path.dirname(os.path.abspath(__file__)))
sys.dont_write_bytecode = True
sys.path.insert(0, os.path.join(TOP, 'tools'))
from built import LACKING, PROGRAM, has_checks, need, need_program, parser_of  # noqa: E402,F401
from make_segments import DAY, Segment, encoded, file_of  # noqa: E402,F401

ASK = '/druid-internal/v1/segments'
QUERY = '/druid/v2/'


def free_ports(count):
    with contextlib.ExitStack() as held:
        sockets = [held.enter_context(socket.socket()) for _ in range(count)]
        for it in sockets:
            it.bind(('127.0.0.1', 0))
        return [it.getsockname()[1] for it in sockets]


def request(method, target, body=b''):
    return f'{method} {target} HTTP/1.1\r\nHost: localhost\r\nContent-Length: {len(body)}\r\n\r\n'.encode() + body


def send(port, data, wait=70):
    """All bytes that come back until the server closes."""
    with socket.create_connection(('127.0.0.1', port), timeout=wait) as stream:
        stream.sendall(data)
        return b''.join(iter(lambda: stream.recv(65_536), b''))


def exchange(port, method, target, body=b'', wait=70):
    """The status and the body of an answer."""
    head, _, body = send(port, request(method, target, body), wait).partition(b'\r\n\r\n')
    return int(head.split()[1]), body


def write_segments(folder, segments, by_columns=False):
    os.makedirs(folder, exist_ok=True)
    for it in segments:
        with open(os.path.join(folder, it.identifier() + '.seg'), 'wb') as file:
            file.write(file_of(it, by_columns))


class Cluster:
    """Nodes over folders and one broker that follows them, in one process; it answers until it is ended. With `every` it goes on, and its
    nodes look at their folders each `watch` milliseconds. `front` is how many front threads each server has."""

    def __init__(self, folder, held, workers=2, broker_workers=4, turns=1, environment=None, prefix=(), every=None, watch=None, front=None):
        self.folder, self.process = folder, None
        self.errors = subprocess.DEVNULL if every else None
        self.broker, *self.nodes = free_ports(1 + len(held))
        for number, segments in enumerate(held):
            write_segments(f'{folder}/n{number}', segments)
        nodes = [{'address': f'127.0.0.1:{port}', 'folder': f'{folder}/n{number}', 'loads': [], 'name': f'n{number}', 'workers': workers}
                 for number, port in enumerate(self.nodes)]
        config = {'brokers': [{'address': f'127.0.0.1:{self.broker}', 'workers': broker_workers}], 'connections': 1_000_000, 'kept': 100,
                  'nodes': nodes, 'queries': [], 'turns': turns}
        for server in [*nodes, *config['brokers']]:
            server.update({'front': front} if front else {})
        if every:
            del config['connections']
            config['every'] = every
        for node in nodes:
            node.update({'watch': watch} if watch else {})
        with open(f'{folder}/config.json', 'w') as file:
            json.dump(config, file)
        self.words = [*prefix, PROGRAM, 'serve', f'{folder}/config.json']
        self.environment = {**os.environ, **(environment or {})}

    def start(self):
        self.process = subprocess.Popen(self.words, stdout=subprocess.DEVNULL, stderr=self.errors, env=self.environment)
        return self

    def stands(self, within=60):
        """Waits until the broker knows all nodes."""
        end = time.monotonic() + within
        while time.monotonic() < end:
            with contextlib.suppress(OSError, IndexError, ValueError):
                if exchange(self.broker, 'GET', '/druid/broker/v1/loadstatus')[1] == b'{"inventoryInitialized":true}':
                    return self
            if self.process.poll() is not None:
                raise SystemExit(f'the program ended with {self.process.returncode}')
            time.sleep(0.01)
        raise SystemExit(f'the cluster does not stand after {within} s')

    def ends(self):
        if self.process:
            self.process.kill()
            self.process.wait()

    def uses(self):
        """Memory in KiB, threads and open files of the process."""
        with open(f'/proc/{self.process.pid}/status') as file:
            status = dict(line.split(':', 1) for line in file)
        return int(status['VmRSS'].split()[0]), int(status['Threads']), len(os.listdir(f'/proc/{self.process.pid}/fd'))
