#!/usr/bin/env python3
"""Serves a page on loopback that shows a cluster that runs: its timelines, its nodes, answers to queries, and segment files.

    ./druid_cluster serve examples/cluster/console.json &
    python3 tools/console.py examples/cluster/console.json

and then a browser at the address that it prints. It stands outside of what is proved, and takes Python's standard library alone.
What is visible it does not compute: it asks a broker what it knows of each node and hands that to `druid_cluster replay`, whose
lookups are proved. A look at the brokers takes a connection for each broker and node, and one for each further page of a node of more
than 20,000 segments; these count to the config's `connections`.
"""
import argparse, concurrent.futures, hashlib, http.client, http.server, itertools, json, os, re, stat, subprocess, sys, threading, time, urllib.parse

TOP = os.path.dirname(os.path.dirname(os.path.abspath(__file__)))
sys.dont_write_bytecode = True
sys.path.insert(0, os.path.join(TOP, 'tools'))
from built import PROGRAM, need_program  # noqa: E402
from make_segments import MAX_FILE, Refused, decoded, printed_time  # noqa: E402

PAGE = os.path.join(TOP, 'tools', 'console')
EXAMPLES = os.path.join(TOP, 'examples', 'queries')
ADDRESS = re.compile(r'127\.0\.0\.1:([1-9][0-9]{0,4})')
NUMBER = r'(?:[0-9]|[1-9][0-9]|1[0-9]{2}|2[0-4][0-9]|25[0-5])'
ANY_ADDRESS = re.compile(rf'{NUMBER}(?:\.{NUMBER}){{3}}:([1-9][0-9]{{0,4}})')  # Where the config has `network`.
MOST = 64  # Nodes, and brokers.

# Bytes: of a config, a query, and what a server of the cluster answers.
MAX_CONFIG, MAX_QUERY, MAX_ANSWER = 16_777_216, 1_048_576, 16_777_216 + 65_536

# Seconds: for a node's or a broker's short answer, for one exchange of a broker with a node, for `replay`; and how old what is known
# of the nodes may be, so that several pages are no more load than one.
SHORT, EXCHANGE, REPLAYING, FRESH = 3, 31, 120, 1
ROWS_SHOWN = 500

# Bytes of the changes in a line of `replay`, and changes of a delta; and how often a snapshot in pages is begun: a broker that moves on
# between two of them gives no more of that mark.
MAX_LINE, DELTA, BEGINNINGS = 16_700_000, 1_000, 3

TYPES = {'.html': 'text/html; charset=utf-8', '.css': 'text/css; charset=utf-8', '.js': 'text/javascript; charset=utf-8'}
FIELDS = {
    'Cache-Control': 'no-store',
    'Content-Security-Policy': "default-src 'none'; script-src 'self'; style-src 'self'; connect-src 'self'; img-src 'self' data:; "
                               "base-uri 'none'; form-action 'none'; frame-ancestors 'none'",
    'Cross-Origin-Resource-Policy': 'same-origin', 'Referrer-Policy': 'no-referrer', 'X-Content-Type-Options': 'nosniff'}


class Fault(Exception):
    """What a request of the page is refused with: a status and one line."""

    def __init__(self, status, text):
        super().__init__(text)
        self.status = status


# The config

def needs(holds, what):
    if not holds:
        raise ValueError(what)


def need_address(config, it, field, key):
    form, what = (ANY_ADDRESS, 'an IPv4 address') if config.get('network') is True else (ADDRESS, '127.0.0.1')
    found = form.fullmatch(it[field] if isinstance(it.get(field), str) else '')
    needs(found and int(found[1]) < 65_536, f'a value of `{field}` in `{key}` that is not {what} and a port')


def servers_of(config, key):
    servers = config.get(key)
    needs(isinstance(servers, list) and 1 <= len(servers) <= MOST and all(isinstance(it, dict) for it in servers), f'`{key}`')
    for it in servers:
        need_address(config, it, 'address', key)
        if 'status' in it:
            need_address(config, it, 'status', key)
    return servers


def read_config(path):
    """The brokers and nodes of a config, with addresses as `serve` takes them."""
    try:
        with open(path, 'rb') as file:
            config = json.loads(file.read(MAX_CONFIG))
        needs(isinstance(config, dict), 'an object')
        brokers, nodes = servers_of(config, 'brokers'), servers_of(config, 'nodes')
        needs(all(isinstance(it.get('name'), str) and isinstance(it.get('folder'), str) for it in nodes), 'a node without `name` or `folder`')
    except OSError as fault:
        sys.exit(f'{path}: {fault.strerror}')
    except ValueError as fault:
        sys.exit(f'{path}: bad config: {fault}')
    return {'brokers': brokers, 'nodes': nodes, 'connections': config.get('connections')}


# Exchanges with the cluster

def exchange(address, method, target, body=None, seconds=SHORT):
    """The status and the body of one response. OSError and HTTPException where there is none."""
    host, port = address.split(':')
    connection = http.client.HTTPConnection(host, int(port), timeout=seconds)
    try:
        connection.request(method, target, body, {'Content-Type': 'application/json'} if body is not None else {})
        response = connection.getresponse()
        answer = response.read(MAX_ANSWER + 1)
        if len(answer) > MAX_ANSWER:
            raise OSError('an answer above 16 MiB')
        return response.status, answer
    finally:
        connection.close()


NO_ANSWER = (OSError, http.client.HTTPException, ValueError, KeyError, TypeError)


def in_parallel(work, items):
    with concurrent.futures.ThreadPoolExecutor(max(1, min(len(items), 16))) as threads:
        return list(threads.map(work, items))


def mark_of(counter):
    """A mark for the page: counts up to 2^64 as texts, which scripts keep exact."""
    return {'count': str(int(counter['counter'])), 'incarnation': str(int(counter['hash']))}


# Nodes: each is asked for the whole once, and then for what comes after the mark that it answered last

class NodeWatch:
    def __init__(self, node):
        self.node, self.mark, self.segments = node, None, None

    def get(self, asked, seconds=EXCHANGE):
        status, body = exchange(self.node['address'], 'GET', '/druid-internal/v1/segments' + asked, seconds=seconds)
        if status != 200:
            raise OSError(f'status {status}')
        return json.loads(body)

    def ask(self):
        if self.mark:
            return self.get('?counter=%d&hash=%d' % self.mark, SHORT)
        exchange(self.node['address'], 'GET', '/status/health')  # A large set may take its time, a node that is silent not.
        return self.get('')

    def count_pages(self, first):
        """How many segments a snapshot has that is sent in pages: all but the last have as many as the first."""
        mark = int(first['counter']['counter']), int(first['counter']['hash'])
        last = self.get('?counter=%d&hash=%d&page=%d' % (*mark, first['pages'] - 1))
        if last['resetCounter']:
            raise OSError('the pages were given up')
        return len(first['requests']) * (first['pages'] - 1) + len(last['requests'])

    def refresh(self):
        reply = self.ask()
        if reply['resetCounter']:
            self.mark = None
            reply = self.ask()
        loads = self.count_pages(reply) if 'pages' in reply else sum(1 if it['action'] == 'load' else -1 for it in reply['requests'])
        mark = int(reply['counter']['counter']), int(reply['counter']['hash'])
        self.mark, self.segments = mark, loads if reply['from'] is None else self.segments + loads

    def state(self):
        it = {'name': self.node['name'], 'address': self.node['address']}
        try:
            self.refresh()
            return {**it, 'answers': True, 'segments': self.segments, 'mark': {'count': str(self.mark[0]), 'incarnation': str(self.mark[1])}}
        except NO_ANSWER as fault:
            return {**it, 'answers': False, 'fault': str(fault) or type(fault).__name__}


class Nodes:
    """What the nodes answered last. One thread asks at a time."""

    def __init__(self, nodes):
        self.watches, self.lock, self.taken, self.states = [NodeWatch(it) for it in nodes], threading.Lock(), None, []

    def look(self):
        with self.lock:
            if self.taken is None or time.monotonic() - self.taken > FRESH:
                self.states = in_parallel(NodeWatch.state, self.watches)
                self.taken = time.monotonic()
            return self.states


# Brokers: what each knows of each node, as snapshots

class Known:
    """What a broker knows of a node: one reply, or pages of one mark, of which some at the end may be lost."""

    def __init__(self, texts, replies):
        self.text, self.counter, self.pages, self.of = b' '.join(texts), replies[0]['counter'], len(replies), replies[0].get('pages', 1)
        self.loads = [it for reply in replies for it in reply['requests']]

    def replies(self, node):
        """Replies that give `replay` the same: what the broker answered, where that is one."""
        return [(node, self.text)] if self.of == 1 else replies_of(node, self.loads)


def replies_of(node, loads):
    """A snapshot of as many of these loads as a line of `replay` holds, and deltas with the others."""
    texts = [compact(it) for it in loads]
    first = sum(size < MAX_LINE for size in itertools.accumulate(len(it) + 1 for it in texts))
    ends = [0, first, *range(first + DELTA, len(texts), DELTA), len(texts)] if first < len(texts) else [0, first]
    mark = b'{"counter":%d,"hash":1}'
    form = b'{"counter":%s,"from":%s,"requests":[%s],"resetCause":null,"resetCounter":false}'
    return [(node, form % (mark % end, mark % start if start else b'null', b','.join(texts[start:end]))) for start, end in zip(ends, ends[1:])]


class BrokerWatch:
    """One look at a broker: what it knows of each node, and how many connections it took."""

    def __init__(self, address):
        self.address, self.connections = address, 0

    def get(self, node, asked=''):
        """An answer as text and as JSON; None where the node was never synced."""
        self.connections += 1
        status, body = exchange(self.address, 'GET', f'/druid-internal/v1/inventory/{node}{asked}', seconds=EXCHANGE)
        if status == 404 and b'V3' in body:
            return None
        if status != 200:
            raise OSError(f'status {status}')
        return body.replace(b'\n', b' '), json.loads(body)

    def pages(self, node):
        """The first answer and, where that is a page, those of the others that the broker still gives at its mark."""
        found = [self.get(node)]
        if found[0] is None:
            return None
        counter = found[0][1]['counter']
        for page in range(1, found[0][1].get('pages', 1)):
            it = self.get(node, '?counter=%d&hash=%d&page=%d' % (counter['counter'], counter['hash'], page))
            if it is None or it[1]['resetCounter']:
                break
            needs(it[1]['counter'] == counter and it[1]['page'] == page, 'another page than was asked for')
            found.append(it)
        return Known(*zip(*found))

    def snapshot(self, node):
        """What the broker knows of a node, None where it was never synced. All of it, unless the broker moves on each time."""
        for _ in range(BEGINNINGS):
            known = self.pages(node)
            if known is None or known.pages == known.of:
                break
        return known

    def look(self, nodes):
        """The snapshots, or why there are none. It stops at the first exchange that fails."""
        try:
            return {'snapshots': [self.snapshot(node) for node in range(nodes)]}
        except NO_ANSWER as fault:
            return {'fault': str(fault) or type(fault).__name__}


def marks_of(look):
    """The mark of each node at a broker; None where it was never synced, and for all nodes where the broker does not answer."""
    return look.get('snapshots') and [it and mark_of(it.counter) for it in look['snapshots']]


# Timelines: what `druid_cluster replay` says of a broker's snapshots

def compact(value):
    return json.dumps(value, separators=(',', ':')).encode()


def replay(program, lines, took):
    """The answers to lines of `replay`. The seconds that it takes are added to `took`."""
    began = time.monotonic()
    try:
        run = subprocess.run([program, 'replay'], input=b'\n'.join(lines) + b'\n', capture_output=True, timeout=REPLAYING, check=False)
    except (OSError, subprocess.TimeoutExpired) as fault:
        raise Fault(502, f'`replay` did not run: {fault}') from None
    took.append(time.monotonic() - began)
    if run.returncode:
        raise Fault(502, f'`replay` ended with {run.returncode}: {run.stderr.decode(errors="replace").strip()[:200]}')
    return [json.loads(line) for line in run.stdout.splitlines()]


def answers_of_lookups(program, names, replies, lookups, took):
    """The pieces of each lookup, at one broker that got these replies: pairs of a node's number and a text."""
    lines = [compact({'count': 1, 'do': 'brokers', 'nodes': names})]
    lines += [b'{"broker":0,"do":"reply","node":%d,"reply":%s}' % it for it in replies]
    lines += [compact({'broker': 0, 'do': 'lookup', 'interval': interval, 'source': source}) for source, interval in lookups]
    answers = replay(program, lines, took)
    refused = [it for it in answers if 'refused' in it]
    if refused or len(answers) != len(lines):
        raise Fault(502, f'`replay` refused what the broker answered: {refused[:1]}')
    return [it['pieces'] for it in answers[1 + len(replies):]]


class Chunk:
    def __init__(self, source, interval, version):
        self.source, self.interval, self.version = source, interval, version
        self.core, self.size, self.members, self.state = 0, 0, {}, 'incomplete'  # `members` are the nodes of each partition.

    def add(self, node, load):
        shard = load['shardSpec']
        self.core = max(self.core, shard['partitions'])
        self.members.setdefault(shard['partitionNum'], []).append((node, load))

    def for_page(self, versions):
        start, end = self.interval.split('/')
        partitions = [[number, [node for node, _ in held]] for number, held in sorted(self.members.items())]
        return [start, end, versions[self.version], self.core, self.state, partitions]


def chunks_of(snapshots):
    """The chunks of each source, in the order of their starts."""
    sources = {}
    for node, known in enumerate(snapshots):
        for load in known.loads if known else []:
            key = load['interval'], load['version']
            chunks = sources.setdefault(load['dataSource'], {})
            if key not in chunks:
                chunks[key] = Chunk(load['dataSource'], *key)
            chunks[key].add(node, load)
    return {source: [chunks[key] for key in sorted(chunks)] for source, chunks in sorted(sources.items())}


def whole_of(chunks):
    return min(it.interval.split('/')[0] for it in chunks) + '/' + max(it.interval.split('/')[1] for it in chunks)


def decide_complete(program, names, chunks, took):
    """Marks as overshadowed those of these chunks, in no piece all of them, that are complete.

    The proved code decides here too: each chunk becomes a source of its own, and there it is visible exactly where it is complete.
    """
    loads = {}
    for place, chunk in enumerate(chunks):
        for held in chunk.members.values():
            for node, load in held:
                loads.setdefault(node, []).append({**load, 'dataSource': f'chunk-{place}'})
    replies = [reply for node, it in loads.items() for reply in replies_of(node, it)]
    lookups = [(f'chunk-{place}', chunk.interval) for place, chunk in enumerate(chunks)]
    for chunk, pieces in zip(chunks, answers_of_lookups(program, names, replies, lookups, took)):
        chunk.state = 'overshadowed' if pieces else 'incomplete'


def timeline_of(chunks, pieces):
    """A source for the page. A piece is the place of its chunk, where it is visible, and its partitions."""
    places = {(it.interval, it.version): place for place, it in enumerate(chunks)}
    shown = []
    for piece in pieces:
        place = places[piece['chunk'], piece['version']]
        chunks[place].state = 'visible'
        shown.append([place, *piece['interval'].split('/'), piece['parts']])
    return shown


def timelines_of(program, names, snapshots):
    """The timelines of what a broker knows, and the seconds that `replay` took."""
    took = []
    sources = chunks_of(snapshots)
    replies = [reply for node, it in enumerate(snapshots) if it for reply in it.replies(node)]
    lookups = [(source, whole_of(chunks)) for source, chunks in sources.items()]
    found = answers_of_lookups(program, names, replies, lookups, took)
    pieces = {source: timeline_of(chunks, it) for (source, chunks), it in zip(sources.items(), found)}
    others = [it for chunks in sources.values() for it in chunks if it.state != 'visible']
    if others:
        decide_complete(program, names, others, took)
    shown = []
    for source, chunks in sources.items():
        versions = sorted({it.version for it in chunks}, reverse=True)
        places = {version: place for place, version in enumerate(versions)}
        shown.append({'source': source, 'versions': versions, 'chunks': [it.for_page(places) for it in chunks], 'pieces': pieces[source]})
    return {'sources': shown, 'seconds': {'replay': round(sum(took), 3)}}


class Brokers:
    """The brokers' looks, and the timelines of the last ones: equal snapshots are not handed to `replay` again."""

    def __init__(self, config, program):
        self.config, self.program, self.lock, self.kept = config, program, threading.Lock(), {}
        self.names = [it['name'] for it in config['nodes']]

    def look(self, chosen, known):
        """What all brokers know of the nodes, and the timelines of one, but where the page knows these by their digest."""
        with self.lock:
            began = time.monotonic()
            watches = [BrokerWatch(it['address']) for it in self.config['brokers']]
            looks = in_parallel(lambda it: it.look(len(self.names)), watches)
            took = time.monotonic() - began
            answer = {'brokers': [{'address': watch.address, 'marks': marks_of(look), 'fault': look.get('fault')} for watch, look in zip(watches, looks)],
                      'connections': sum(it.connections for it in watches)}
            snapshots = looks[chosen].get('snapshots')
            if not snapshots:
                return answer
            answer['parts'] = [{'node': name, 'pages': it.pages, 'of': it.of} for name, it in zip(self.names, snapshots) if it and it.pages < it.of]
            digest = hashlib.sha256(b'\n'.join(it.text if it else b'' for it in snapshots)).hexdigest()
            if digest != known:
                if self.kept.get('digest') != digest:
                    self.kept = {'digest': digest, **timelines_of(self.program, self.names, snapshots)}
                    self.kept['seconds']['inventories'] = round(took, 3)
                answer.update(self.kept)
            return {**answer, 'digest': digest}


# Servers: what their status addresses say of them, which take no connection of the servers themselves

SAMPLE = re.compile(r'druid_cluster_(\w+)\{(.*)\} (\S+)')
LABEL = re.compile(r'(\w+)="((?:[^"\\]|\\.)*)"')


class Metrics:
    """The samples of one server, as `GET /metrics` gives them: labels and a number, by the family's name without its first words."""

    def __init__(self, text):
        self.samples = {}
        for family, labels, number in SAMPLE.findall(text):
            self.samples.setdefault(family, []).append((dict(LABEL.findall(labels)), int(number) if number.isdigit() else float(number)))

    def number(self, family):
        return sum(number for _, number in self.samples.get(family, []))

    def by(self, family, label, **where):
        """The numbers of a family added up by a label, of the samples with these other labels."""
        found = {}
        for labels, number in self.samples.get(family, []):
            if all(labels.get(key) == value for key, value in where.items()):
                found[labels[label]] = found.get(labels[label], 0) + number
        return found


def followed(metrics, name):
    """What a broker says of a node: how many exchanges ended in each way, and how many seconds ago a turn last did not fail."""
    heard = metrics.by('followed_heard_timestamp_seconds', 'node', node=name).get(name, 0)
    return {'node': name, 'exchanges': metrics.by('exchanges_total', 'end', node=name), 'heard': round(max(0, time.time() - heard)) if heard else None}


def server_state(server, names):
    """What the status address of a server says, for the page."""
    it = {'server': server['server'], 'address': server['status']}
    try:
        status, body = exchange(server['status'], 'GET', '/metrics')
        if status != 200:
            raise OSError(f'status {status}')
        metrics = Metrics(body.decode())
    except NO_ANSWER as fault:
        return {**it, 'answers': False, 'fault': str(fault) or type(fault).__name__}
    it.update(answers=True, connections=metrics.number('connections_total'), statuses=metrics.by('answers_total', 'status'))
    if server['server'].startswith('broker:'):
        return {**it, 'nodes': [followed(metrics, name) for name in names]}
    held = {key: metrics.number(f'node_{key}') for key in ('segments', 'rows', 'file_bytes')}
    return {**it, **held, 'incarnation': str(metrics.number('node_incarnation'))}


class Servers:
    """The servers of a config that have a status address, and what these answered last. One thread asks at a time."""

    def __init__(self, config):
        named = [{'server': f'broker:{place}', **it} for place, it in enumerate(config['brokers'])]
        named += [{'server': it['name'], **it} for it in config['nodes']]
        self.servers, self.names = [it for it in named if 'status' in it], [it['name'] for it in config['nodes']]
        self.lock, self.taken, self.states = threading.Lock(), None, []

    def look(self):
        with self.lock:
            if self.taken is None or time.monotonic() - self.taken > FRESH:
                self.states = in_parallel(lambda it: server_state(it, self.names), self.servers)
                self.taken = time.monotonic()
            return self.states


# Queries: the page's text goes to a broker as it is, and what comes back is put as rows

def cell(value):
    return value if value is None or isinstance(value, str) else str(value)


def table_of(query, rows):
    """Result rows as a table: the columns in the order of the query, numbers as texts, which scripts keep exact."""
    inner = 'result' if query['queryType'] == 'timeseries' else 'event'
    given = query.get('dimensions') or [] if inner == 'event' else []
    dimensions = [it if isinstance(it, str) else it.get('outputName') or it['dimension'] for it in given]
    metrics = [it['name'] for it in query.get('aggregations') or []]
    return {'kind': query['queryType'], 'dimensions': dimensions, 'metrics': metrics,
            'rows': [[row['timestamp'], *(cell(row[inner][name]) for name in dimensions + metrics)] for row in rows]}


def source_of(query):
    source = query['dataSource']
    return source if isinstance(source, str) else source['name']


def read_answer(status, text, body):
    """What a broker answered, for the page."""
    answer = json.loads(body)
    if status not in (200, 503):
        return {'refused': answer if isinstance(answer, dict) else {}}
    query = json.loads(text)
    shown = {'source': source_of(query), 'table': table_of(query, answer if status == 200 else answer['partial'])}
    return shown if status == 200 else {**shown, 'missing': answer['missing']}


def ask(broker, replicas, text):
    """The answer of a broker to a query's text, and the milliseconds from the connection to the last byte."""
    began = time.monotonic()
    try:
        status, body = exchange(broker['address'], 'POST', '/druid/v2', text, seconds=EXCHANGE * (replicas + 1))
        took = (time.monotonic() - began) * 1000
        return {'status': status, 'milliseconds': round(took, 1), **read_answer(status, text, body)}
    except NO_ANSWER as fault:
        raise Fault(502, f'{broker["address"]} gave no answer: {str(fault) or type(fault).__name__}') from None


def example_queries():
    found = []
    for name in sorted(os.listdir(EXAMPLES)):
        if name.endswith('.json'):
            with open(os.path.join(EXAMPLES, name), encoding='utf-8') as file:
                found.append({'name': name[:-5], 'text': file.read().rstrip('\n')})
    return found


# Segment files

def names_of(folder):
    try:
        return sorted(it for it in os.listdir(folder) if it.endswith('.seg'))
    except OSError as fault:
        raise Fault(404, f'the folder: {fault.strerror}') from None


def file_of(folder, name):
    """The bytes of a segment file of a folder: a name that the folder lists, and no link to elsewhere."""
    if name not in names_of(folder):
        raise Fault(404, 'the folder has no such segment file')
    try:
        handle = os.open(os.path.join(folder, name), os.O_RDONLY | os.O_NOFOLLOW | os.O_NONBLOCK)
        with os.fdopen(handle, 'rb') as file:
            if not stat.S_ISREG(os.fstat(handle).st_mode):
                raise Fault(404, 'no regular file')
            return file.read(MAX_FILE + 1)
    except OSError as fault:
        raise Fault(404, f'the file: {fault.strerror}') from None


def rows_of(data, first):
    """A segment's descriptor and its rows from a place on, read as `tools/make_segments.py show` reads them."""
    try:
        segment = decoded(data)
    except Refused as fault:
        raise Fault(422, f'no segment file: {fault}') from None
    rows = segment.rows[first:first + ROWS_SHOWN]
    return {'identifier': segment.identifier(), 'core': segment.core, 'size': str(segment.size), 'count': len(segment.rows), 'first': first,
            'dimensions': segment.dimensions, 'metrics': segment.metrics,
            'rows': [[printed_time(at), *texts, *map(cell, numbers)] for at, texts, numbers in rows]}


# The page's server

class Console(http.server.ThreadingHTTPServer):
    daemon_threads = True

    def __init__(self, port, config, program):
        super().__init__(('127.0.0.1', port), Handler)
        self.config, self.nodes, self.brokers, self.statuses = config, Nodes(config['nodes']), Brokers(config, program), Servers(config)
        self.hosts = {f'{name}:{self.server_port}' for name in ('127.0.0.1', 'localhost')}
        self.files = {f'/{name}': name for name in os.listdir(PAGE) if os.path.splitext(name)[1] in TYPES}
        self.files['/'] = 'index.html'


class Handler(http.server.BaseHTTPRequestHandler):
    server_version, sys_version, timeout = 'console', '', 30

    def do_GET(self):
        self.respond({'/api/cluster': self.cluster, '/api/nodes': self.nodes, '/api/servers': self.servers, '/api/brokers': self.brokers,
                      '/api/files': self.files, '/api/file': self.file})

    def do_POST(self):
        self.respond({'/api/query': self.query, '/api/show': self.show})

    def respond(self, routes):
        """Answers one request: a file of the page, or what one of the routes gives as JSON."""
        try:
            self.check_sender()
            path, _, words = self.path.partition('?')
            self.words = dict(urllib.parse.parse_qsl(words, max_num_fields=8))
            if self.command == 'GET' and path in self.server.files:
                return self.send_page(self.server.files[path])
            if path not in routes:
                raise Fault(404, 'no such path')
            self.send_bytes(200, 'application/json', compact(routes[path]()))
        except Fault as fault:
            self.send_bytes(fault.status, 'application/json', compact({'fault': str(fault)}))
        except (BrokenPipeError, ConnectionResetError, TimeoutError):
            self.close_connection = True
        except ValueError:
            self.send_bytes(400, 'application/json', compact({'fault': 'a bad request'}))

    def check_sender(self):
        """Clients of this machine alone, which ask for this server by its name, and no script of another page."""
        if self.client_address[0] != '127.0.0.1' or self.headers.get_all('Host') is None or len(self.headers.get_all('Host')) != 1:
            raise Fault(403, 'loopback clients alone')
        if self.headers['Host'] not in self.server.hosts:
            raise Fault(403, 'another Host')
        origin = self.headers.get('Origin')
        if origin is not None and origin not in {f'http://{host}' for host in self.server.hosts}:
            raise Fault(403, 'another page')
        if self.headers.get('Sec-Fetch-Site', 'none') not in ('none', 'same-origin') and self.path.partition('?')[0] != '/':
            raise Fault(403, 'another page')

    def body(self, most):
        length = self.headers.get('Content-Length', '')
        if self.headers.get('Transfer-Encoding') or not re.fullmatch('[0-9]{1,9}', length):
            self.close_connection = True
            raise Fault(411, 'a body of stated length')
        if int(length) > most:
            self.close_connection = True
            raise Fault(413, f'a body above {most:,} bytes')
        return self.rfile.read(int(length))

    def number(self, key, below):
        word = self.words.get(key, '0')
        if not re.fullmatch('[0-9]{1,6}', word) or int(word) >= below:
            raise Fault(404, f'no such {key}')
        return int(word)

    # What the page asks for

    def cluster(self):
        config = self.server.config
        return {'brokers': [it['address'] for it in config['brokers']], 'connections': config['connections'],
                'nodes': [{'name': it['name'], 'address': it['address']} for it in config['nodes']], 'examples': example_queries()}

    def nodes(self):
        return {'nodes': self.server.nodes.look()}

    def servers(self):
        return {'servers': self.server.statuses.look()}

    def brokers(self):
        return self.server.brokers.look(self.number('broker', len(self.server.config['brokers'])), self.words.get('known'))

    def query(self):
        broker = self.server.config['brokers'][self.number('broker', len(self.server.config['brokers']))]
        return ask(broker, len(self.server.config['nodes']), self.body(MAX_QUERY))

    def node(self):
        return self.server.config['nodes'][self.number('node', len(self.server.config['nodes']))]

    def files(self):
        return {'files': names_of(self.node()['folder'])}

    def file(self):
        return rows_of(file_of(self.node()['folder'], self.words.get('name', '')), self.number('first', 100_000))

    def show(self):
        return rows_of(self.body(MAX_FILE + 1), self.number('first', 100_000))

    # What is sent

    def send_page(self, name):
        with open(os.path.join(PAGE, name), 'rb') as file:
            self.send_bytes(200, TYPES[os.path.splitext(name)[1]], file.read())

    def send_bytes(self, status, kind, data):
        self.send_response(status)
        for key, value in {**FIELDS, 'Content-Type': kind, 'Content-Length': str(len(data)), 'Connection': 'close'}.items():
            self.send_header(key, value)
        self.end_headers()
        self.wfile.write(data)

    def log_message(self, form, *values):
        pass


def main():
    parser = argparse.ArgumentParser(description='Serves a page on loopback that shows a cluster that runs.')
    parser.add_argument('config', help='the config that the cluster was started with; its folders are those from the working folder')
    parser.add_argument('--port', type=int, default=8090, help='of the page, 8090 unless said otherwise; 0 takes a free one')
    parser.add_argument('--program', default=PROGRAM, help='the built program, whose `replay` says what is visible')
    asked = parser.parse_args()
    config = read_config(asked.config)
    need_program(asked.program)
    try:
        console = Console(asked.port, config, asked.program)
    except OSError as fault:
        sys.exit(f'127.0.0.1:{asked.port}: {fault.strerror}')
    print(f'http://127.0.0.1:{console.server_port}/', flush=True)
    try:
        console.serve_forever()
    except KeyboardInterrupt:
        pass


if __name__ == '__main__':
    main()
