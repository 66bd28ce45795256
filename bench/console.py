#!/usr/bin/env python3
"""Serves a node of 20,000 chunks and its console, and prints how long its page takes to stand, and how smooth it scrolls.

    python3 bench/console.py [CHUNKS]

17,000 chunks of an hour in version v2, of which each tenth is not complete, and later and earlier versions over and under some of them.
The page is driven in headless Chromium, which draws by the processor alone. It needs what tests/console/README.md says.
"""
import os, shutil, sys, tempfile

TOP = os.path.dirname(os.path.dirname(os.path.abspath(__file__)))
sys.path.insert(0, os.path.join(TOP, 'tests', 'console'))
from browser import Browser  # noqa: E402
from served import CHROMIUM, console_of, need, need_program, parser_of, write_config, write_segments  # noqa: E402
from make_segments import Segment  # noqa: E402

HOUR = 3_600_000
SCROLLING = 4  # Seconds.

FRAMES = """new Promise((done) => {
    const frames = [];
    const step = (at) => {
        frames.push(at);
        if (at - frames[0] < %d) requestAnimationFrame(step);
        else done(frames.slice(1).map((it, place) => it - frames[place]));
    };
    requestAnimationFrame(step);
    const canvas = document.querySelector('.timeline canvas');
    let turn = 0;
    const wheel = () => {
        if (frames.length && performance.now() - frames[0] > %d) return;
        canvas.dispatchEvent(new WheelEvent('wheel', { %s, cancelable: true, bubbles: true }));
        turn += 1;
        setTimeout(wheel, 8);
    };
    wheel();
})"""


def chunks(count):
    """Chunks of one partition, and some of core 2 with only that one."""
    shares = (('v2', count * 17 // 20, 10), ('v3', count // 10, 0), ('v1', count - count * 17 // 20 - count // 10, 0))
    for version, many, incomplete in shares:
        apart = count * 17 // 20 // many
        for place in range(many):
            start = 946_684_800_000 + place * apart * HOUR
            core = 2 if incomplete and place % incomplete == 0 else 1
            yield Segment('events', start, start + HOUR, version, 0, core, 0, [], ['n'], [(start, [], [place])])


def scrolled(page, what, wheel):
    lengths = sorted(page.value(FRAMES % (SCROLLING * 1000, SCROLLING * 1000, wheel)))
    print(f'{what}: {len(lengths) / sum(lengths) * 1000:.0f} frames a second, half within {lengths[len(lengths) // 2]:.0f} ms, '
          f'99% within {lengths[len(lengths) * 99 // 100]:.0f} ms, the longest {lengths[-1]:.0f} ms')


def stands(page, url):
    """The milliseconds from the page's request for the timelines until it stands, those in which the console waited, and what replay took."""
    page.open(url, "performance.getEntriesByName('timeline').length > 0")
    asked, answered, stood = page.value("""(() => {
        const it = performance.getEntriesByType('resource').find((entry) => entry.name.includes('/api/brokers'));
        return [it.startTime, it.responseEnd, performance.getEntriesByName('timeline')[0].startTime] })()""")
    seconds = page.value("fetch('/api/brokers?known=').then((it) => it.json()).then((it) => it.seconds)")
    rest = stood - asked - 1000 * (seconds['inventories'] + seconds['replay'])
    print(f"the page stands {stood - asked:.0f} ms after it asked: {1000 * seconds['inventories']:.0f} ms the broker's snapshots, "
          f"{1000 * seconds['replay']:.0f} ms `replay`, {rest:.0f} ms the rest, of which {stood - answered:.0f} ms in the page")


def main():
    parser = parser_of(__doc__)
    parser.add_argument('chunks', nargs='?', type=int, default=20_000)
    count = parser.parse_args().chunks
    need_program()
    need(CHROMIUM)
    folder = tempfile.mkdtemp()
    try:
        write_segments(os.path.join(folder, 'n0'), chunks(count))
        config = os.path.join(folder, 'config.json')
        broker, _ = write_config(config, [os.path.join(folder, 'n0')])
        with console_of(config, broker) as url, Browser(CHROMIUM, 1400, 900) as page:
            stands(page, url)
            print(f"{page.value('document.querySelector(`.in-view p`).textContent')}; load of the machine {os.getloadavg()[0]:.1f}")
            scrolled(page, 'the whole, zoomed in and out', 'deltaY: turn % 400 < 200 ? -8 : 8, clientX: 700')
            page.value("for (let turn = 0; turn < 4; turn += 1) document.querySelectorAll('.timeline .bar button')[2].click()")
            scrolled(page, 'a sixteenth, scrolled', 'deltaX: turn % 400 < 200 ? 20 : -20')
            page.value("for (let turn = 0; turn < 4; turn += 1) document.querySelectorAll('.timeline .bar button')[2].click()")
            scrolled(page, 'a 256th, scrolled', 'deltaX: turn % 400 < 200 ? 20 : -20')
    finally:
        shutil.rmtree(folder, ignore_errors=True)


if __name__ == '__main__':
    main()
