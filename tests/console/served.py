"""A cluster with its console, served for a test or a measurement, and what its broker says: all of it ends with the `with`, or after a while."""
import contextlib, http.client, json, os, socket, subprocess, sys, time

TOP = os.path.dirname(os.path.dirname(os.path.dirname(os.path.abspath(__file__))))
sys.dont_write_bytecode = True
sys.path.insert(0, os.path.join(TOP, 'tools'))
from built import PROGRAM, need, need_program, parser_of  # noqa: E402,F401
from make_segments import file_of  # noqa: E402

CHROMIUM = os.environ.get('CHROMIUM', 'chromium')
LONGEST = '900'  # Seconds after which `timeout` ends what a killed test leaves.


def free_ports(count):
    with contextlib.ExitStack() as held:
        sockets = [held.enter_context(socket.socket()) for _ in range(count)]
        for it in sockets:
            it.bind(('127.0.0.1', 0))
        return [it.getsockname()[1] for it in sockets]


def write_segments(folder, segments):
    os.makedirs(folder, exist_ok=True)
    for it in segments:
        with open(os.path.join(folder, it.identifier() + '.seg'), 'wb') as file:
            file.write(file_of(it))


def write_config(path, folders, end={'connections': 1_000_000}, has_status=False):
    """A config of one broker over nodes `n0` and on, one for each folder. `end` is what says when it ends, or that it does not."""
    addresses = [f'127.0.0.1:{port}' for port in free_ports(2 * (1 + len(folders)))]
    (broker, *nodes), statuses = addresses[::2], [{'status': it} if has_status else {} for it in addresses[1::2]]
    with open(path, 'w', encoding='utf-8') as file:
        json.dump({'brokers': [{'address': broker, 'workers': 4, **statuses[0]}], **end, 'kept': 100, 'queries': [], 'turns': 1,
                   'nodes': [{'address': address, 'folder': folder, 'loads': [], 'name': f'n{place}', 'workers': 2, **status}
                             for place, (address, folder, status) in enumerate(zip(nodes, folders, statuses[1:]))]}, file)
    return broker, nodes


def exchange(address, target, text=None, **fields):
    """The status and the body of a response; the target is sent as it is."""
    host, port = address.split(':')
    connection = http.client.HTTPConnection(host, int(port), timeout=150)
    try:
        connection.request('GET' if text is None else 'POST', target, text, fields)
        response = connection.getresponse()
        return response.status, response.read()
    finally:
        connection.close()


@contextlib.contextmanager
def running(words):
    process = subprocess.Popen(['timeout', LONGEST, *words], stdout=subprocess.PIPE, cwd=TOP)
    try:
        yield process
    finally:
        process.terminate()
        process.wait()
        process.stdout.close()


def is_known(broker):
    try:
        return exchange(broker, '/druid/broker/v1/loadstatus')[1] == b'{"inventoryInitialized":true}'
    except OSError:
        return False


@contextlib.contextmanager
def console_of(config, broker):
    """The page's address, once the broker of the config knows all nodes."""
    if is_known(broker):
        raise SystemExit(f'{broker}: another program answers there')
    with running([PROGRAM, 'serve', config]) as program:
        until = time.monotonic() + 120
        while not is_known(broker):
            if program.poll() is not None or time.monotonic() > until:
                raise SystemExit(f'{PROGRAM} does not serve {config}')
            time.sleep(0.1)
        with running([sys.executable, os.path.join(TOP, 'tools', 'console.py'), '--port', '0', '--program', PROGRAM, config]) as console:
            yield console.stdout.readline().decode().strip()


@contextlib.contextmanager
def silent(addresses):
    """Clients that say nothing hold all workers of these nodes, which so do not answer; each worker for 30 s, and then the next."""
    with contextlib.ExitStack() as held:
        for address in addresses:
            host, port = address.split(':')
            for _ in range(8):
                held.enter_context(socket.create_connection((host, int(port))))
        yield
