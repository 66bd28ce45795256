#!/usr/bin/env python3
"""Runs `druid_cluster serve` over a small cluster on 127.0.0.1, and prints how it answers.

    python3 bench/serve.py [--program PATH]

One broker over three data nodes: a segment on the nodes n0 and n2, another one on n1 alone. Measured are requests a second and
the 50th and 99th percentile of their times, of health and of a query that asks two nodes, beside nginx with one fixed file and
no keep-alive; 1,000 connections one after another, and what memory, threads and open files the program has before and after;
and clients that hold all workers of a node, or one of the broker, and send nothing or a byte a second. Nothing is checked but
that the program answers before the first and after the last of them.

It needs `ab`, which asks for 10 seconds or 50,000 times, and `nginx`: apt-get install apache2-utils nginx-light. It takes some
minutes, since a query that waits for a node waits until the limit of an exchange.
"""
import contextlib, csv, http.client, json, os, re, socket, subprocess, sys, tempfile, threading, time

from lib import PROGRAM, need, need_program, parser_of
from make_segments import DAY, Segment, file_of

# Clients at a time and the seconds that they ask, where requests a second are measured.
CLIENTS, ASKING = 4, 10

# The workers of each node and of the broker, and of nginx.
NODE_WORKERS, BROKER_WORKERS = 2, 4

# Seconds: until the program stands, for one answer, and that slow clients stay.
STANDING, WAITING, STAYING = 60, 70, 75

WARM_UP, CONNECTIONS = 200, 1_000
ROWS = 1_000
SOURCE = 'bench'
NODES = ['n0', 'n1', 'n2']
QUERY_PATH = '/druid/v2/'
HEALTH_PATH = '/status/health'

# Of these partitions each is on those nodes.
PLACES = {0: ['n0', 'n2'], 1: ['n1']}

QUERY = {'queryType': 'timeseries', 'dataSource': SOURCE, 'granularity': 'hour', 'intervals': '1970-01-01/1970-01-02',
         'aggregations': [{'type': 'count', 'name': 'n'}, {'type': 'longSum', 'name': 's', 'fieldName': 'm'}]}

NGINX = """daemon off; pid {folder}/nginx.pid; error_log {folder}/nginx.log; worker_processes {workers};
events {{ }}
http {{
    access_log off; keepalive_timeout 0; default_type application/json;
    client_body_temp_path {folder}/t0; proxy_temp_path {folder}/t1; fastcgi_temp_path {folder}/t2; uwsgi_temp_path {folder}/t3;
    scgi_temp_path {folder}/t4;
    server {{ listen 127.0.0.1:{port}; root {folder}/files; }}
}}
"""


# What is run.

def free_ports(count):
    with contextlib.ExitStack() as held:
        sockets = [held.enter_context(socket.socket()) for _ in range(count)]
        for it in sockets:
            it.bind(('127.0.0.1', 0))
        return [it.getsockname()[1] for it in sockets]


def write_segments(folder):
    """The folders of the nodes, with their segment files."""
    for name in NODES:
        os.makedirs(os.path.join(folder, name))
    for partition, names in PLACES.items():
        rows = [(i * DAY // ROWS, [f'v{i % 10}'], [i]) for i in range(partition, ROWS)]
        segment = Segment(SOURCE, 0, DAY, 'v1', partition, len(PLACES), 0, ['d'], ['m'], rows)
        for name in names:
            with open(os.path.join(folder, name, segment.identifier() + '.seg'), 'wb') as f:
                f.write(file_of(segment))


def config(folder, ports):
    broker, *nodes = [f'127.0.0.1:{port}' for port in ports]
    return {'brokers': [{'address': broker, 'workers': BROKER_WORKERS}], 'connections': 1_000_000, 'kept': 100, 'queries': [],
            'turns': 1,
            'nodes': [{'address': address, 'folder': os.path.join(folder, name), 'loads': [], 'name': name, 'workers': NODE_WORKERS}
                      for name, address in zip(NODES, nodes)]}


@contextlib.contextmanager
def running(words, **more):
    """A program that is ended after the block, first kindly."""
    child = subprocess.Popen(words, stdin=subprocess.DEVNULL, **more)
    try:
        yield child
    finally:
        child.terminate()
        try:
            child.wait(5)
        except subprocess.TimeoutExpired:
            child.kill()
            child.wait()


# Single requests.

def ask(port, method, path, body=None, limit=WAITING):
    """The status and the body of an answer, or the name of what failed and nothing; and the seconds that it took."""
    start = time.monotonic()
    link = http.client.HTTPConnection('127.0.0.1', port, timeout=limit)
    try:
        link.request(method, path, body, {'Content-Type': 'application/json', 'Connection': 'close'})
        answer = link.getresponse()
        reported = answer.status, answer.read()
    except (OSError, http.client.HTTPException) as fault:
        reported = type(fault).__name__, b''
    finally:
        link.close()
    return *reported, time.monotonic() - start


def ask_query(port, limit=WAITING):
    return ask(port, 'POST', QUERY_PATH, json.dumps(QUERY), limit)


def is_standing(port):
    """Whether a server answers there and, if it is a broker, has heard of each node."""
    status, _, _ = ask(port, 'GET', HEALTH_PATH, limit=1)
    if status != 200:
        return False
    status, body, _ = ask(port, 'GET', '/druid/broker/v1/loadstatus', limit=5)
    return status != 200 or json.loads(body)['inventoryInitialized']


def wait_for(child, port):
    end = time.monotonic() + STANDING
    while not is_standing(port):
        if child.poll() is not None:
            sys.exit(f'it ended with status {child.returncode} before it answered')
        if time.monotonic() > end:
            sys.exit(f'nothing answers within {STANDING} s')
        time.sleep(0.1)


# Many requests.

def percentiles(path):
    """The milliseconds within which so many percent were answered, as `ab -e` writes them."""
    with open(path, newline='') as f:
        return {int(percent): float(spent) for percent, spent in list(csv.reader(f))[1:]}


def number_in(text, name):
    found = re.search(rf'^{re.escape(name)}: +([0-9.]+)', text, re.MULTILINE)
    return float(found[1]) if found else 0.0


def measure(name, url, body=None):
    """Prints how `ab` was answered, and gives the requests a second, or 0 where not each was answered with 200."""
    with tempfile.NamedTemporaryFile(suffix='.csv') as table:
        words = ['ab', '-q', '-s', str(WAITING), '-c', str(CLIENTS), '-t', str(ASKING), '-e', table.name]
        words += ['-p', body, '-T', 'application/json'] if body else []
        ran = subprocess.run(words + [url], stdin=subprocess.DEVNULL, capture_output=True, text=True, timeout=ASKING + 2 * WAITING)
        if ran.returncode != 0:
            print(f'{name:44} ab: {ran.stderr.strip()}', flush=True)
            return 0.0
        within = percentiles(table.name)
    rate = number_in(ran.stdout, 'Requests per second')
    failed, refused = int(number_in(ran.stdout, 'Failed requests')), int(number_in(ran.stdout, 'Non-2xx responses'))
    print(f'{name:44} {rate:10,.0f} a second, half within {within.get(50, 0):.2f} ms, 99% within {within.get(99, 0):.2f} ms, '
          f'{int(number_in(ran.stdout, "Complete requests")):,} in all, {failed} failed, {refused} not 200', flush=True)
    return 0.0 if failed or refused else rate


def compare(name, rate, other):
    if rate and other:
        print(f'{name} {rate / other:.3f}', flush=True)
    else:
        print(f'{name} not reported, since not each was answered with 200', flush=True)


def measure_nginx(folder):
    """The requests a second of nginx, for a file with the body of an answer on health."""
    [port] = free_ports(1)
    files = os.path.join(folder, 'files', 'status')
    os.makedirs(files)
    os.chmod(folder, 0o755)
    with open(os.path.join(files, 'health'), 'w') as f:
        f.write('true')
    path = os.path.join(folder, 'nginx.conf')
    with open(path, 'w') as f:
        f.write(NGINX.format(folder=folder, workers=BROKER_WORKERS, port=port))
    with running(['nginx', '-p', folder, '-e', os.path.join(folder, 'nginx.log'), '-c', path]) as child:
        wait_for(child, port)
        return measure('nginx, a fixed file', f'http://127.0.0.1:{port}{HEALTH_PATH}')


def rates(folder, broker):
    body = os.path.join(folder, 'query.json')
    with open(body, 'w') as f:
        json.dump(QUERY, f)
    health = measure('broker, health', f'http://127.0.0.1:{broker}{HEALTH_PATH}')
    query = measure('broker, a query to two nodes', f'http://127.0.0.1:{broker}{QUERY_PATH}', body)
    fixed = measure_nginx(folder)
    compare('health, of the rate of nginx:', health, fixed)
    compare('the query, of the rate of nginx:', query, fixed)
    return health


# What the program holds.

def held(pid):
    with open(f'/proc/{pid}/status') as f:
        reported = dict(line.split(':', 1) for line in f)
    return {'KiB': int(reported['VmRSS'].split()[0]), 'threads': int(reported['Threads']), 'files': len(os.listdir(f'/proc/{pid}/fd'))}


def some_connections(broker, count):
    """How many of so many requests, each other one a query, were answered with 200."""
    return sum((ask_query(broker) if n % 2 else ask(broker, 'GET', HEALTH_PATH))[0] == 200 for n in range(count))


def one_after_another(pid, broker):
    some_connections(broker, WARM_UP)
    before = held(pid)
    good = some_connections(broker, CONNECTIONS)
    after = held(pid)
    print(f'{CONNECTIONS:,} connections one after another, {good:,} of them 200: '
          + ', '.join(f'{kind} {before[kind]:,} to {after[kind]:,}' for kind in before), flush=True)


# Slow clients.

SLOW_REQUEST = b'GET /status/health HTTP/1.1\r\nHost: localhost\r\nX-Slow: ' + b'x' * STAYING


class Slow:
    """Connections to a server that send nothing, or a byte of a request a second, until they are closed or the time is over."""

    def __init__(self, port, count, drips):
        self.start = time.monotonic()
        self.links = [socket.create_connection(('127.0.0.1', port), timeout=5) for _ in range(count)]
        self.closed, self.over = [], threading.Event()
        self.threads = [threading.Thread(target=self.stay, args=(link, drips)) for link in self.links]
        for it in self.threads:
            it.start()

    def is_closed(self, link, part):
        """Whether the server closes it within a second of this part."""
        try:
            link.sendall(part)
            while link.recv(4096):
                pass
            return True
        except TimeoutError:
            return False
        except OSError:
            return True

    def stay(self, link, drips):
        link.settimeout(1)
        for n in range(STAYING):
            if self.over.is_set():
                return
            if self.is_closed(link, SLOW_REQUEST[n:n + 1] if drips else b''):
                self.closed.append(time.monotonic() - self.start)
                return

    def end(self):
        self.over.set()
        for it in self.threads:
            it.join()
        for it in self.links:
            it.close()
        reported = ', '.join(f'{it:.1f}' for it in sorted(self.closed)) or 'none'
        print(f'    of {len(self.links)} slow clients closed by the server, after seconds: {reported}', flush=True)


@contextlib.contextmanager
def slow(port, count, drips):
    clients = Slow(port, count, drips)
    try:
        time.sleep(0.5)
        yield
    finally:
        clients.end()


def tell(what, reported):
    status, body, spent = reported
    print(f'    {what:36} {status} in {spent:.2f} s, {len(body):,} bytes', flush=True)


def slow_at_node(name, which, node, broker, drips):
    """A query while so many slow clients as it has workers hold a node; then another one, and the health of the node itself."""
    print(f'{NODE_WORKERS} clients at {name}, {which}, that send ' + ('a byte a second' if drips else 'nothing'), flush=True)
    with slow(node, NODE_WORKERS, drips):
        tell('a query', ask_query(broker))
        tell('a query after it', ask_query(broker))
        tell(f'health of {name}', ask(node, 'GET', HEALTH_PATH, limit=5))
    tell('a query once they are gone', ask_query(broker))


def slow_clients(ports, quick):
    broker, n0, n1, _ = ports
    for drips in (False, True):
        slow_at_node('n0', 'whose segment n2 has too', n0, broker, drips)
        slow_at_node('n1', 'which alone has its segment', n1, broker, drips)
    for drips in (False, True):
        print('one client at the broker that sends ' + ('a byte a second' if drips else 'nothing'), flush=True)
        with slow(broker, 1, drips):
            rate = measure(f'    health, {CLIENTS} quick clients beside it', f'http://127.0.0.1:{broker}{HEALTH_PATH}')
        compare('    of the rate without it:', rate, quick)


def main():
    parser = parser_of(__doc__)
    parser.add_argument('--program', default=PROGRAM, help='the built program, that of this repository unless said otherwise')
    program = os.path.abspath(parser.parse_args().program)
    need_program(program)
    need('ab', 'nginx')
    with tempfile.TemporaryDirectory() as folder:
        write_segments(folder)
        ports = free_ports(1 + len(NODES))
        path = os.path.join(folder, 'cluster.json')
        with open(path, 'w') as f:
            json.dump(config(folder, ports), f)
        with running([program, 'serve', path]) as child:
            wait_for(child, ports[0])
            tell('the first query', ask_query(ports[0]))
            quick = rates(folder, ports[0])
            one_after_another(child.pid, ports[0])
            slow_clients(ports, quick)
            last = ask(ports[0], 'GET', HEALTH_PATH)
            tell('health at the end', last)
    sys.exit(0 if last[0] == 200 else 1)


if __name__ == '__main__':
    main()
