#!/usr/bin/env python3
"""Makes the pictures of docs/images: the example's cluster in its console, in headless Chromium.

    python3 tests/console/pictures.py [FOLDER]        # docs/images unless said otherwise; a minute and a half

It serves a copy of examples/cluster on the ports of console.json, which the pictures show; where another program has them it ends.
"""
import json, os, shutil, tempfile

from browser import Browser
from served import CHROMIUM, TOP, console_of, need, need_program, parser_of, silent

CLUSTER = os.path.join(TOP, 'examples', 'cluster')
HOURS = {'queryType': 'timeseries', 'dataSource': 'orders', 'granularity': 'hour', 'intervals': '2024-05-02T06:00/2024-05-02T20:00',
         'aggregations': [{'type': 'count', 'name': 'orders'}, {'type': 'longSum', 'name': 'cents', 'fieldName': 'cents'}]}
REFUSED = {**HOURS, 'granularity': 'week'}
WIDTH = 1200


def lines(query):
    """A query's JSON, a line for each key."""
    return '{\n' + ',\n'.join(f'  {json.dumps(key)}: {json.dumps(value)}' for key, value in query.items()) + '\n}'


def ask(page, query, seconds=20):
    page.value(f"document.getElementById('text').value = {json.dumps(lines(query))}")
    page.value("document.getElementById('text').dispatchEvent(new Event('input')); document.querySelector('#query button').click()")
    page.wait_for("!document.querySelector('#query button').disabled", seconds)


def picture(page, path, to):
    """The page from its top to the end of an element, once that stands still."""
    page.value("new Promise((done) => setTimeout(done, 600))")
    bottom = page.value(f"window.scrollTo(0, 0); document.querySelector('{to}').getBoundingClientRect().bottom")
    page.picture(path, {'x': 0, 'y': 0, 'width': WIDTH, 'height': round(bottom) + 14})
    print(f'{path}: {os.path.getsize(path) // 1000} kB')


def copy_cluster(to):
    """The example, whose folders get no file of incarnations by this; the path of its config, its broker and its nodes."""
    with open(os.path.join(CLUSTER, 'console.json'), encoding='utf-8') as file:
        config = json.load(file)
    for node in config['nodes']:
        shutil.copytree(os.path.join(TOP, node['folder']), os.path.join(to, node['name']), ignore=shutil.ignore_patterns('incarnation*'))
        node['folder'] = os.path.join(to, node['name'])
    with open(os.path.join(to, 'config.json'), 'w', encoding='utf-8') as file:
        json.dump({**config, 'queries': []}, file)
    return os.path.join(to, 'config.json'), config['brokers'][0]['address'], [it['address'] for it in config['nodes']]


def make_pictures(folder, to):
    config, broker, nodes = copy_cluster(to)
    os.makedirs(folder, exist_ok=True)
    with console_of(config, broker) as url, Browser(CHROMIUM, WIDTH, 1500) as page:
        page.open(url, "document.querySelectorAll('.in-view li').length >= 4")
        ask(page, HOURS)
        picture(page, f'{folder}/console.png', '.beside')
        ask(page, REFUSED)
        picture(page, f'{folder}/console-refused.png', '.beside')
        page.value("document.querySelector('.timeline li').click()")
        page.value("document.querySelector('.timeline [role=listbox]').focus()")
        page.key('Enter')
        picture(page, f'{folder}/console-correction.png', '.timeline')
        page.open(url + '?', "document.querySelectorAll('.in-view li').length >= 4")
        with silent([nodes[0], nodes[2]]):
            ask(page, HOURS, 130)
            page.wait_for("document.querySelectorAll('#nodes td.fault').length >= 2")
            picture(page, f'{folder}/console-missing.png', '.beside')


def main():
    parser = parser_of(__doc__)
    parser.add_argument('folder', nargs='?', default=os.path.join(TOP, 'docs', 'images'))
    folder = parser.parse_args().folder
    need_program()
    need(CHROMIUM)
    to = tempfile.mkdtemp()
    try:
        make_pictures(folder, to)
    finally:
        shutil.rmtree(to, ignore_errors=True)


if __name__ == '__main__':
    main()
