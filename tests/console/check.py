#!/usr/bin/env python3
"""Serves a small cluster and its console, drives the page in headless Chromium, and compares what it shows with what the broker says.

    python3 tests/console/check.py            # two minutes; README.md here says what it needs

What is visible is worked out here once more, plainly, from the broker's snapshots. It ends with 1 where the page shows anything else.
"""
import glob, json, os, re, shutil, sys, tempfile, traceback

from browser import Browser
from served import CHROMIUM, TOP, console_of, exchange, need, need_program, parser_of, silent, write_config, write_segments
from make_segments import DAY, Segment, decoded

HOUR = 3_600_000
MAY_1, MAY_2 = 1_714_521_600_000, 1_714_608_000_000
LISTED = """[...document.querySelectorAll('.timeline')].flatMap((it) => [...it.querySelectorAll('li[role=option]')].map((li) =>
    [it.dataset.source, li.dataset.version, li.dataset.chunk, li.dataset.state, li.dataset.pieces, li.dataset.missing ?? '']))"""
TABLE = """[...document.querySelectorAll('#answer tbody tr')].map((row) =>
    [...row.cells].map((it) => it.className === 'null' ? null : it.textContent))"""


def equal(found, wanted, what):
    if found != wanted:
        raise AssertionError(f'{what}: the page has {found!r}, the broker {wanted!r}')


def segment(version, start, length, partition, core):
    return Segment('orders', start, start + length, version, partition, core, 0, ['country'], ['cents'], [(start, ['FR'], [2**63 - 1])])


def make_cluster(folder):
    """The example's segments, an overshadowed chunk, one that is not complete, and a correction that n2 alone has."""
    folders = [os.path.join(folder, f'n{node}') for node in range(3)]
    for node, to in enumerate(folders):
        os.makedirs(to)
        for file in glob.glob(os.path.join(TOP, 'examples', 'cluster', f'n{node}', '*.seg')):
            shutil.copy(file, to)
    write_segments(folders[0], [segment('v0', MAY_1, DAY, 0, 1), segment('v3', MAY_2 + 12 * HOUR, HOUR, 0, 3)])
    write_segments(folders[1], [segment('v3', MAY_2 + 12 * HOUR, HOUR, 2, 3)])
    write_segments(folders[2], [segment('v4', MAY_2 + 20 * HOUR, HOUR, 0, 1)])
    config = os.path.join(folder, 'config.json')
    return config, *write_config(config, folders)


# What the broker says

def chunks_at(broker, nodes):
    """The partitions and the core counts of each chunk, out of the broker's snapshots."""
    chunks = {}
    for node in range(nodes):
        for load in json.loads(exchange(broker, f'/druid-internal/v1/inventory/{node}')[1])['requests']:
            shard = load['shardSpec']
            chunks.setdefault((load['dataSource'], load['version'], load['interval']), []).append((shard['partitionNum'], shard['partitions']))
    return chunks


def is_complete(members):
    return set(range(max(core for _, core in members))) <= {number for number, _ in members}


def listed(chunks):
    """What the page is to list: of each chunk its state, and where it is visible. Instants as texts, which are in the order of time."""
    complete = [key for key, members in chunks.items() if is_complete(members)]
    shown = []
    for source, version, chunk in chunks:
        of_source = [(other, *interval.split('/')) for name, other, interval in complete if name == source]
        cuts = sorted({cut for _, *ends in of_source for cut in ends})
        pieces = []
        for start, end in zip(cuts, cuts[1:]):
            over = max(((other, *ends) for other, *ends in of_source if ends[0] <= start < ends[1]), default=None)
            if over == (version, *chunk.split('/')):
                pieces[-1:] = [[pieces[-1][0], end]] if pieces and pieces[-1][1] == start else [*pieces[-1:], [start, end]]
        state = 'visible' if pieces else 'overshadowed' if (source, version, chunk) in complete else 'incomplete'
        shown.append([source, version, chunk, state, ' '.join('/'.join(it) for it in pieces), ''])
    return sorted(shown)


def rows_of(text, body):
    """Result rows as the page's table is to have them."""
    query, inner = json.loads(text), 'result' if json.loads(text)['queryType'] == 'timeseries' else 'event'
    dimensions = [] if inner == 'result' else [it if isinstance(it, str) else it['outputName'] for it in query.get('dimensions', [])]
    names = dimensions + [it['name'] for it in query['aggregations']]
    return [[row['timestamp'], *(it if it is None or isinstance(it, str) else str(it) for it in map(row[inner].get, names))] for row in body]


# What the page shows

def ask(page, text, seconds=20):
    page.value(f"document.getElementById('text').value = {json.dumps(text)}")
    page.value("document.getElementById('text').dispatchEvent(new Event('input')); document.querySelector('#query button').click()")
    page.wait_for("!document.querySelector('#query button').disabled", seconds)


def stands(page, url):
    page.open(url, "document.querySelectorAll('.in-view li').length >= 6 && document.querySelectorAll('#nodes td').length >= 15")


def timelines(page, broker, nodes):
    wanted = listed(chunks_at(broker, len(nodes)))
    equal(sorted(page.value(LISTED)), wanted, 'chunks')
    equal({it[3] for it in wanted}, {'visible', 'overshadowed', 'incomplete'}, 'kinds of chunks in this test')
    sources = json.loads(exchange(broker, '/druid/v2/datasources')[1])
    equal(page.value("[...document.querySelectorAll('.timeline')].map((it) => it.dataset.source)"), sources, 'data sources')


def node_table(page, _, nodes):
    rows = page.value("[...document.querySelectorAll('#nodes tbody tr')].map((row) => [...row.cells].map((it) => it.textContent))")
    for place, address in enumerate(nodes):
        reply = json.loads(exchange(address, '/druid-internal/v1/segments')[1])
        mark = f"({reply['counter']['hash']}, {reply['counter']['counter']})"
        equal(rows[place], [f'n{place}', address, '✓ answers', mark, str(len(reply['requests'])), f'{mark}, the same'], f'node n{place}')


def canvas_box(page):
    return page.value("((it) => [it.left, it.top, it.width, it.height])(document.querySelector('.timeline canvas').getBoundingClientRect())")


def wait_for_count(page, is_less, count):
    page.wait_for(f"document.querySelectorAll('.timeline:first-child li').length {'<' if is_less else '==='} {count}")


def pointing(page, *_):
    """Hover, keys, wheel and drag: a chunk in words, and other views."""
    left, top, width, height = canvas_box(page)
    page.mouse('mouseMoved', left + width * 0.3, top + height - 24)
    words = page.wait_for("!document.getElementById('hover').hidden && document.getElementById('hover').textContent")
    for part in ('v0, 2024-05-01 to 2024-05-02: overshadowed', 'core count 1', 'n0 at (1, '):
        assert part in words, f'{part!r} is not in {words!r}'
    page.mouse('mouseMoved', 5, 5)
    count = page.value("document.querySelectorAll('.timeline:first-child li').length")
    page.value("document.querySelector('.timeline canvas').focus()")
    for _ in range(8):
        page.key('+')
    wait_for_count(page, True, count)
    page.key('0')
    wait_for_count(page, False, count)
    page.mouse('mouseWheel', left + width * 0.3, top + 60, deltaX=0, deltaY=-900)
    wait_for_count(page, True, count)
    shown = page.value("document.querySelector('.timeline .range').textContent")
    page.mouse('mousePressed', left + width * 0.5, top + 60, button='left', buttons=1, clickCount=1)
    page.mouse('mouseMoved', left + width * 0.8, top + 60, button='left', buttons=1)
    page.mouse('mouseReleased', left + width * 0.8, top + 60, button='left', clickCount=1)
    earlier = page.wait_for(f"((it) => it !== {json.dumps(shown)} && it)(document.querySelector('.timeline .range').textContent)")
    assert earlier < shown, f'{earlier} is not earlier than {shown}'
    page.key('0')
    wait_for_count(page, False, count)


def segment_rows(page, *_):
    """A chunk chosen in the list, the rows of its segment, and those of a file that is dropped."""
    page.value("document.querySelector('.timeline [role=listbox]').focus()")
    page.key('ArrowDown')
    detail = page.wait_for("document.querySelector('.timeline .detail').textContent")
    assert 'v3' in detail and '2 of 3 core partitions' in detail, detail
    page.value("document.querySelector('.timeline .detail button').click()")
    equal(page.wait_for("document.querySelectorAll('#rows tbody tr').length"), 1, 'rows of a segment')
    equal(page.value("document.querySelector('#rows td.number').textContent"), str(2**63 - 1), 'a number of 64 bits')
    with open(os.path.join(TOP, 'examples', 'vector.dsg'), 'rb') as file:
        data = list(file.read())
    drop = ("{ const it = new DataTransfer(); it.items.add(new File([new Uint8Array(%s)], 'x.seg')); "
            "document.body.dispatchEvent(new DragEvent('drop', { dataTransfer: it, bubbles: true })) }")
    page.value(drop % data)
    shown = "[...document.querySelectorAll('#rows td')].map((it) => it.textContent)"
    page.wait_for(f"({shown}).includes('x')")
    equal(page.value(shown), ['1970-01-01T00:00:01.000Z', 'x', '5'], 'the row of examples/vector.dsg')
    page.value(drop % data[:-1])
    equal(page.wait_for("document.querySelector('#rows .fault')?.textContent"), 'no segment file: F2: it ends inside a part', 'a cut file')


def queries(page, broker, _):
    for path in sorted(glob.glob(os.path.join(TOP, 'examples', 'queries', '*.json'))):
        with open(path, encoding='utf-8') as file:
            text = file.read()
        ask(page, text)
        equal(page.value(TABLE), rows_of(text, json.loads(exchange(broker, '/druid/v2', text)[1])), os.path.basename(path))
        assert page.value("!!document.querySelector('#answer svg')"), f'{path}: no chart'


def refusals(page, broker, _):
    for text in ('{"queryType":"timeseries","dataSource":"orders","granularity":"week","intervals":"2024-05-01/2024-05-02"}',
                 '{"queryType":"groupBy","dataSource":"orders","granularity":"all","intervals":"2024-05-01/2024-05-02","filter":{"type":"like"}}'):
        ask(page, text)
        status, body = exchange(broker, '/druid/v2', text)
        refused = json.loads(body)
        equal(page.value("document.getElementById('refusal').dataset.field"), refused['field'], 'the field of a refusal')
        assert page.value("document.getElementById('refusal').textContent").startswith(f"{status} {refused['error']}"), 'the refusal in words'
        marked = page.value("document.querySelector('#marks mark').textContent")
        assert marked.startswith(f'"{refused["field"]}":'), marked
        equal(page.value("getSelection().toString()"), marked, 'the selected text')
    ask(page, '{"queryType":"timeseries"}')
    assert 'which the query has not' in page.value("document.getElementById('refusal').textContent")


def node_away(page, broker, nodes):
    """n2 no longer answers: v2 has another replica, and the correction v4 is missing."""
    text = json.dumps({'queryType': 'timeseries', 'dataSource': 'orders', 'granularity': 'hour', 'intervals': '2024-05-02/2024-05-03',
                       'aggregations': [{'type': 'count', 'name': 'orders'}]})
    with silent([nodes[2]]):
        ask(page, text, 100)
        status, body = exchange(broker, '/druid/v2', text)
        page.wait_for("[...document.querySelectorAll('[data-node=n2] td')].some((it) => it.textContent.startsWith('✗'))")
    answer = json.loads(body)
    equal(status, 503, 'the status')
    found = page.value("[...document.querySelectorAll('#answer li')].map((it) => JSON.parse(it.dataset.missing))")
    equal(found, answer['missing'], 'what is missing')
    equal(page.value(TABLE), rows_of(text, answer['partial']), 'the partial rows')
    assert page.value("document.querySelector('#answer .partial caption').textContent").startswith('Partial')
    slices = sorted([it['ver'], it['chunk'], str(it['part'])] for it in answer['missing'])
    marked = sorted(it[1:3] + [it[5]] for it in page.wait_for(f"((all) => all.some((it) => it[5]) && all)({LISTED})") if it[5])
    equal(marked, slices, 'what is marked in the timeline')
    assert ['v4'] == [it[0] for it in slices], slices


def doors(page, broker, _):
    """The console's server: paths, Host, pages of others, bodies."""
    address = page.value('location.host')
    for path in ('/../console.py', '/%2e%2e/console.py', '/console.py', '/api/file?node=0&name=../config.json', '/api/file?node=0&name=incarnation',
                 '/api/file?node=7&name=x', '/druid/v2', '/api/brokers?broker=1', f'http://{broker}/status/health'):
        equal(exchange(address, path, Host=address)[0], 404, path)
    equal(exchange(address, '/', Host='console.example')[0], 403, 'another Host')
    equal(exchange(address, '/api/query', '{}', Origin='http://console.example')[0], 403, 'another page')
    equal(exchange(address, '/api/query', 'x' * 1_048_577)[0], 413, 'a long body')
    equal(exchange(address, '/api/show', 'DSG2')[0], 422, 'no segment file')


def requests_of(page, *_):
    """No request left this machine, and no script failed."""
    urls = {it['params']['request']['url'] for it in page.events if it['method'] == 'Network.requestWillBeSent'}
    host = page.value('location.origin')
    equal([it for it in urls if not it.startswith((f'{host}/', 'data:'))], [], 'requests elsewhere')
    equal([it['params'] for it in page.events if it['method'] == 'Runtime.exceptionThrown'], [], 'exceptions')
    equal(page.value("document.getElementById('servers-section').hidden"), True, 'no section of servers where none has a status address')


def server_table(page, folders):
    """What the status addresses say: a node holds what is in its folder, and the broker hears of each node."""
    rows = page.wait_for("((rows) => rows.length === 4 && rows.map((row) => [...row.cells].map((it) => it.innerText)))"
                         "([...document.querySelectorAll('#servers tbody tr')])")
    broker, *nodes = [[row[0], *row[2:]] for row in rows]
    equal(broker[:2], ['broker:0', '✓ answers'], 'the broker')
    for place, said in enumerate(broker[4].split('\n')):
        assert re.fullmatch(f'n{place}: heard of [0-9] s ago; answered: [1-9][0-9]*', said), said
    for place, (folder, row) in enumerate(zip(folders, nodes)):
        files = glob.glob(os.path.join(folder, '*.seg'))
        segments = []
        for path in files:
            with open(path, 'rb') as file:
                segments.append(decoded(file.read()))
        bytes_held, rows_held = sum(map(os.path.getsize, files)), sum(len(it.rows) for it in segments)
        equal(row[:2], [f'n{place}', '✓ answers'], f'node n{place}')
        assert re.fullmatch(f'incarnation [1-9][0-9]*; {len(files)} segments, {rows_held:,} rows, {bytes_held:,} bytes', row[4]), row


def endless(folder):
    """Over a cluster without an end the page says how many connections it took, and of no number; and what status addresses say."""
    config, folders = os.path.join(folder, 'endless.json'), [os.path.join(folder, f'n{node}') for node in range(3)]
    broker, _ = write_config(config, folders, {'every': 500}, has_status=True)
    with console_of(config, broker) as url, Browser(CHROMIUM) as page:
        page.open(url, "document.querySelectorAll('.in-view li').length >= 6")
        words = page.wait_for("((words) => words.includes('looked at') && words)(document.getElementById('state').textContent)")
        assert re.fullmatch('running; broker looked at [0-9]+ s ago; [1-9][0-9]* connections taken by this page', words), words
        server_table(page, folders)


def passes(test, *given):
    try:
        test(*given)
        print(f'ok {test.__name__}', flush=True)
        return True
    except (AssertionError, OSError, TimeoutError):
        print(f'FAILED {test.__name__}: {traceback.format_exc(limit=2)}', flush=True)
        return False


def main():
    parser_of(__doc__).parse_args()
    need_program()
    need(CHROMIUM)
    folder = tempfile.mkdtemp()
    failed = 0
    try:
        config, broker, nodes = make_cluster(folder)
        with console_of(config, broker) as url, Browser(CHROMIUM) as page:
            tests = (timelines, node_table, pointing, segment_rows, queries, refusals, doors, node_away, requests_of)
            failed += sum(not passes(it, page, broker, nodes) for it in tests) if passes(stands, page, url) else 1
        failed += not passes(endless, folder)
    finally:
        shutil.rmtree(folder, ignore_errors=True)
    print(f'{failed} failed')
    return 1 if failed else 0


if __name__ == '__main__':
    sys.exit(main())
