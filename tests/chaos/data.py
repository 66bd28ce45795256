"""The segment files that a run moves, and what the rules say of each set of them.

A file has a bit, and what lies in a folder, what a node serves and what a broker knows are masks of such bits. Rows carry a mark that
names their version, partition and place, so an answer tells of which rows it was made. All that a query says of a day is said of it
alone: intervals of segments do not cross midnight, and buckets are no longer than a day.
"""
import collections
import functools
import json
import os
import sys

TESTS = os.path.dirname(os.path.dirname(os.path.abspath(__file__)))
sys.path[:0] = [TESTS, os.path.join(TESTS, 'differential')]
import rules  # noqa: E402
from served import DAY, Segment, file_of  # noqa: E402

HOUR = 3_600_000
FIRST_DAY = 19_844  # 2024-05-01, in days since 1970.
DAYS = 2
SOURCE = 'w'

File = collections.namedtuple('File', 'bit name day version part core start end rows')


def rows_of(draw, version, part, start, end):
    """Some rows in an interval, of a number that differs from version to version, each with a mark of its own."""
    hours = (end - start) // HOUR
    chosen = sorted(draw.sample(range(hours), min(hours, draw.randint(3, 9))))
    times = [start + hour * HOUR + draw.randrange(HOUR) for hour in chosen]
    return [(time, {'mark': f'{version}.{part}.{place}'}, {'m': draw.randrange(1, 10**12)}) for place, time in enumerate(times)]


def chunks_of_day(draw):
    """The versions of a day: the hours that each covers and how many partitions make it complete."""
    half, hour = draw.choice([0, 6, 12]), draw.randrange(1, 21)
    return [('v1', 0, 24, 2), ('v2', 0, 24, draw.randint(1, 2)), ('v3', half, half + 12, draw.randint(1, 3)), ('v4', hour, hour + 3, draw.randint(1, 2))]


def draw_files(draw):
    """The files of a run."""
    files = []
    for day in range(DAYS):
        for version, first, last, core in chunks_of_day(draw):
            start, end = ((FIRST_DAY + day) * DAY + hour * HOUR for hour in (first, last))
            for part in range(core):
                name = rules.identifier({'source': SOURCE, 'start': start, 'end': end, 'version': version, 'part': part}) + '.seg'
                rows = rows_of(draw, version, part, start, end)
                files.append(File(1 << len(files), name, day, version, part, core, start, end, rows))
    return files


def bytes_of(file):
    rows = [(time, [values['mark']], [numbers['m']]) for time, values, numbers in file.rows]
    return file_of(Segment(SOURCE, file.start, file.end, file.version, file.part, file.core, 0, ['mark'], ['m'], rows))


def chunk_of(file):
    return file.version, file.start, file.end


class Rules:
    """What is visible of each set of files, and what a query answers over it."""

    def __init__(self, files):
        self.files = files
        self.of_day = [sum(it.bit for it in files if it.day == day) for day in range(DAYS)]
        self.chunks = collections.defaultdict(list)
        for it in files:
            self.chunks[chunk_of(it)].append(it)
        self.slices = functools.lru_cache(None)(self.slices)
        self.expected = functools.lru_cache(200_000)(self.expected)
        self.shown = functools.lru_cache(None)(self.shown)

    def shown(self, mask, day):
        """The chunk that is visible in each hour of a day, None where there is none: the complete one of the greatest version."""
        start = (FIRST_DAY + day) * DAY
        complete = [chunk for chunk, files in self.chunks.items() if files[0].day == day and all(mask & it.bit for it in files)]
        hours = range(start, start + DAY, HOUR)
        return [max((it for it in complete if it[1] <= hour < it[2]), default=None) for hour in hours]

    def slices(self, mask, day, start, end):
        """The slices of visible segments of a day within an interval: of each its piece and its file."""
        slices, before = [], None
        for place, chunk in enumerate(self.shown(mask, day)):
            hour = (FIRST_DAY + day) * DAY + place * HOUR
            if chunk is None or hour + HOUR <= start or hour >= end:
                before = None
                continue
            if chunk == before:
                slices[-1][1] = hour + HOUR
            else:
                slices.append([hour, hour + HOUR, chunk])
            before = chunk
        return [((max(one, start), min(other, end)), it) for one, other, chunk in slices for it in self.chunks[chunk]]

    def expected(self, mask, day, query, missing):
        """What a query answers for a day over a set of files, some slices of which are missing; None where these are no such slices."""
        slices = self.slices(mask, day, query.start, query.end)
        named = {slice_key(piece, it) for piece, it in slices}
        if not missing <= named:
            return None
        rows = [row for piece, it in slices if slice_key(piece, it) not in missing for row in it.rows if piece[0] <= row[0] < piece[1]]
        return json.loads(rules.result(query.read, rules.passing(query.read, rows)))

    def names(self, mask):
        """The files of a set, as a person reads them."""
        return ' '.join(f'{it.day}:{it.version}.{it.part}' for it in self.files if mask & it.bit) or 'nothing'


def slice_key(piece, file):
    return rules.span(file.start, file.end), rules.span(*piece), file.part, file.version


def day_of(text):
    """The day of an instant, counted from the first."""
    return rules.instant(text) // DAY - FIRST_DAY


class Query:
    """A query, as it is posted and as the rules read it."""

    def __init__(self, body, start, end):
        self.body, self.start, self.end = json.dumps(body).encode(), start, end
        self.read = rules.read_query(self.body)


def query_of(kind, start, end):
    """A query of a kind: `marks` shows each row, `hours` sums them by the hour, `marked` counts some marks by the day."""
    aggregations = [{'type': 'count', 'name': 'rows'}, {'type': 'longSum', 'name': 'sum', 'fieldName': 'm'}]
    body = {'dataSource': SOURCE, 'intervals': [rules.span(start, end)], 'aggregations': aggregations}
    if kind == 'hours':
        return Query({**body, 'queryType': 'timeseries', 'granularity': 'hour'}, start, end)
    body = {**body, 'queryType': 'groupBy', 'granularity': 'day', 'dimensions': ['mark']}
    if kind == 'marked':
        body['filter'] = {'type': 'not', 'field': {'type': 'in', 'dimension': 'mark', 'values': ['v1.0.0', 'v2.0.1', 'v3.1.0']}}
    return Query(body, start, end)


def whole():
    """The query that shows each row of all days."""
    return query_of('marks', FIRST_DAY * DAY, (FIRST_DAY + DAYS) * DAY)


def draw_query(draw):
    """Any query, over some hours."""
    first, last = sorted(draw.sample(range(DAYS * 24 + 1), 2))
    return query_of(draw.choice(['marks', 'hours', 'marked']), FIRST_DAY * DAY + first * HOUR, FIRST_DAY * DAY + last * HOUR)
