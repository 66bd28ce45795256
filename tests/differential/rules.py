"""The rules of queries, asks and visibility, read anew in Python and apart from the proved code: what tests/differential/drawn.py compares with.

Instants are milliseconds from 1970. A segment is a dict of `source`, `start`, `end`, `version`, `part`, `core`, `dims`, `mets` and
`rows`; a row is (time, {dimension: text or None}, {metric: number or None}). A refusal is a `Refused`, and else each function gives
what is answered. docs/FORMATS.md has the rules in words.
"""
import json
import re
import struct

DAY = 86_400_000
LENGTHS = {'second': 1_000, 'minute': 60_000, 'hour': 3_600_000, 'day': DAY}
EMPTY_KEYS = ('postAggregations', 'virtualColumns', 'having', 'limitSpec', 'limit', 'subtotalsSpec')
FORMS = [re.compile(form) for form in (
    r'(\d{4})-(\d\d)-(\d\d)\Z',
    r'(\d{4})-(\d\d)-(\d\d)T(\d\d):(\d\d)Z?\Z',
    r'(\d{4})-(\d\d)-(\d\d)T(\d\d):(\d\d):(\d\d)Z?\Z',
    r'(\d{4})-(\d\d)-(\d\d)T(\d\d):(\d\d):(\d\d)\.(\d{3})Z?\Z')]
SOURCE = re.compile(r'[A-Za-z0-9_.-]+\Z')
VERSION = re.compile(r'[!-~]{1,64}\Z')


class Refused(Exception):
    def __init__(self, code, field=None):
        self.code, self.field = code, field

    def text(self):
        reported = {'error': self.code}
        if self.code == 'Q3':
            reported['field'] = self.field
        return text(reported)


# Texts and numbers

def text(value):
    """Compact JSON, its keys in the order of their bytes."""
    def ordered(it):
        if isinstance(it, dict):
            return {key: ordered(it[key]) for key in sorted(it, key=str.encode)}
        return [ordered(each) for each in it] if isinstance(it, list) else it
    return json.dumps(ordered(value), separators=(',', ':'), ensure_ascii=False)


def read_json(body):
    """What serde_json reads: no NaN, no number out of range, no lone surrogate, 127 levels at most."""
    def number(digits):
        value = float(digits)
        if value in (float('inf'), float('-inf')):
            raise ValueError('out of range')
        return value

    def none(word):
        raise ValueError(word)

    def look(it, depth):
        inner = [*it.keys(), *it.values()] if isinstance(it, dict) else it if isinstance(it, list) else None
        if isinstance(it, str) and any(0xD800 <= ord(c) < 0xE000 for c in it):
            raise ValueError('a lone surrogate')
        if inner is not None:
            if depth == 127:
                raise ValueError('too deep')
            for each in inner:
                look(each, depth + 1)
    try:
        value = json.loads(body.decode('utf-8'), parse_float=number, parse_constant=none)
        look(value, 0)
        return value
    except (ValueError, RecursionError):
        raise Refused('Q1') from None


def days_from_1970(year, month, day):
    year -= month <= 2
    era = year // 400
    of_era = year - era * 400
    of_year = (153 * (month + (-3 if month > 2 else 9)) + 2) // 5 + day - 1
    return era * 146_097 + of_era * 365 + of_era // 4 - of_era // 100 + of_year - 719_468


def days_of_month(year, month):
    if month == 2:
        return 29 if year % 4 == 0 and (year % 100 != 0 or year % 400 == 0) else 28
    return 30 if month in (4, 6, 9, 11) else 31


def instant(given):
    """The instant of a text, None where it is none."""
    for form in FORMS:
        found = form.match(given) if given.isascii() else None
        if found:
            year, month, day, hour, minute, second, ms = [*map(int, found.groups()), 0, 0, 0, 0][:7]
            if not (1 <= month <= 12 and 1 <= day <= days_of_month(year, month) and hour < 24 and minute < 60 and second < 60):
                return None
            return ((days_from_1970(year, month, day) * 24 + hour) * 60 + minute) * 60_000 + second * 1_000 + ms
    return None


def printed(ms):
    days, rest = divmod(ms, DAY)
    days += 719_468
    era = days // 146_097
    of_era = days - era * 146_097
    years = (of_era - of_era // 1460 + of_era // 36_524 - of_era // 146_096) // 365
    of_year = of_era - (365 * years + years // 4 - years // 100)
    at = (5 * of_year + 2) // 153
    month = at + (3 if at < 10 else -9)
    return '%04d-%02d-%02dT%02d:%02d:%02d.%03dZ' % (
        years + era * 400 + (month <= 2), month, of_year - (153 * at + 2) // 5 + 1,
        rest // 3_600_000, rest // 60_000 % 60, rest // 1_000 % 60, rest % 1_000)


def interval(given):
    """The interval of a text, None where it is none."""
    if given.count('/') != 1:
        return None
    start, end = map(instant, given.split('/'))
    return None if start is None or end is None or start >= end else (start, end)


def span(start, end):
    return f'{printed(start)}/{printed(end)}'


# Queries: each reader takes the query's JSON. Of one field the shape comes first (Q3), then intervals (Q4), then limits (Q5)

def needs(holds, code, field=None):
    if not holds:
        raise Refused(code, field)


def is_text(value):
    return isinstance(value, str)


def is_type(value, name):
    return isinstance(value, dict) and is_text(value.get('type')) and value['type'] == name


def are_labels(names):
    return all(1 <= len(name.encode()) <= 100 for name in names)


def read_source(query):
    source = query.get('dataSource')
    if isinstance(source, dict):
        needs(is_type(source, 'table'), 'Q3', 'dataSource')
        source = source.get('name')
    needs(is_text(source), 'Q3', 'dataSource')
    needs(are_labels([source]), 'Q5')
    needs(SOURCE.match(source), 'Q3', 'dataSource')
    return source


def read_granularity(query):
    given = query.get('granularity')
    if isinstance(given, dict):
        needs(is_type(given, 'all'), 'Q3', 'granularity')
        return 'all'
    needs(is_text(given) and given.isascii() and given.lower() in ('all', *LENGTHS), 'Q3', 'granularity')
    return given.lower()


def intervals_of(texts, field):
    needs(isinstance(texts, list) and texts and all(map(is_text, texts)), 'Q3', field)
    read = [interval(each) for each in texts]
    needs(None not in read, 'Q4')
    needs(len(read) <= 1_000, 'Q5')
    return read


def read_intervals(query):
    given = query.get('intervals')
    if isinstance(given, dict):
        needs(is_type(given, 'intervals'), 'Q3', 'intervals')
        given = given.get('intervals')
    elif is_text(given):
        given = [given]
    return intervals_of(given, 'intervals')


def read_filter(query):
    if query.get('filter') is None:
        return None
    members, depths, labels, values, lists = [], [], [], [], []

    def read(it, depth):
        needs(isinstance(it, dict) and is_text(it.get('type')), 'Q3', 'filter')
        members.append(it)
        depths.append(depth)
        kind = it['type']
        if kind in ('selector', 'in'):
            given = [it.get('value', 0)] if kind == 'selector' else it.get('values')
            needs(is_text(it.get('dimension')) and isinstance(given, list), 'Q3', 'filter')
            needs(all(each is None or is_text(each) for each in given), 'Q3', 'filter')
            labels.append(it['dimension'])
            lists.append(given)
            values.extend(each for each in given if each is not None)
            return lambda row: row[1].get(it['dimension']) in given
        if kind in ('and', 'or'):
            needs(isinstance(it.get('fields'), list), 'Q3', 'filter')
            fields = [read(each, depth + 1) for each in it['fields']]
            over = all if kind == 'and' else any
            return lambda row: over(each(row) for each in fields)
        needs(kind == 'not' and 'field' in it, 'Q3', 'filter')
        field = read(it['field'], depth + 1)
        return lambda row: not field(row)

    passes = read(query['filter'], 1)
    needs(len(members) <= 1_000 and max(depths) <= 50 and are_labels(labels), 'Q5')
    needs(all(len(each) <= 1_000 for each in lists) and all(len(each.encode()) <= 1_024 for each in values), 'Q5')
    return passes


def read_dimensions(query):
    """Each dimension with its name in the result."""
    if query['queryType'] == 'timeseries' or 'dimensions' not in query:
        return []
    needs(isinstance(query['dimensions'], list), 'Q3', 'dimensions')
    read = []
    for it in query['dimensions']:
        it = {'type': 'default', 'dimension': it} if is_text(it) else it
        needs(is_type(it, 'default') and is_text(it.get('dimension')), 'Q3', 'dimensions')
        read.append((it['dimension'], it.get('outputName', it['dimension'])))
        needs(is_text(read[-1][1]), 'Q3', 'dimensions')
    needs(len(read) <= 16 and are_labels(sum(read, ())), 'Q5')
    return read


def read_aggregations(query):
    """Of each aggregator its type, its name and its field."""
    given = query.get('aggregations', [])
    needs(isinstance(given, list), 'Q3', 'aggregations')
    read = []
    for it in given:
        needs(any(is_type(it, kind) for kind in ('count', 'longSum', 'longMin', 'longMax')), 'Q3', 'aggregations')
        field = '-' if it['type'] == 'count' else it.get('fieldName')
        needs(is_text(it.get('name')) and is_text(field), 'Q3', 'aggregations')
        read.append((it['type'], it['name'], field))
    needs(len(read) <= 16 and are_labels([each for it in read for each in it[1:]]), 'Q5')
    return read


def query_at(body, read_middle):
    value = read_json(body)
    needs(isinstance(value, dict) and is_text(value.get('queryType')), 'Q2')
    needs(value['queryType'] in ('timeseries', 'groupBy'), 'Q2')
    query = {'kind': value['queryType'], 'source': read_source(value), 'granularity': read_granularity(value)}
    query.update(read_middle(value))
    query['passes'] = read_filter(value)
    query['dimensions'] = read_dimensions(value)
    query['aggregations'] = read_aggregations(value)
    needs(value.get('descending') is None or value['descending'] is False, 'Q3', 'descending')
    for key in EMPTY_KEYS:
        needs(value.get(key) is None or isinstance(value[key], (list, dict)) and not value[key], 'Q3', key)
    names = [name for _, name in query['dimensions']] + [name for _, name, _ in query['aggregations']]
    needs(len(set(names)) == len(names), 'Q6')
    return query


def read_query(body):
    return query_at(body, lambda value: {'intervals': read_intervals(value)})


def read_asked(given):
    """Of each piece that is asked for: its chunk, its version, its partition, and the piece."""
    needs(is_type(given, 'segments') and isinstance(given.get('segments'), list) and given['segments'], 'Q3', 'intervals')
    for it in given['segments']:
        needs(isinstance(it, dict) and is_text(it.get('chunk')) and is_text(it.get('itvl')), 'Q3', 'intervals')
        needs(type(it.get('part')) is int and 0 <= it['part'] <= 65_535 and is_text(it.get('ver')), 'Q3', 'intervals')
        needs(VERSION.match(it['ver']) and not set('_/"\\') & set(it['ver']), 'Q3', 'intervals')
    asked = []
    for it in given['segments']:
        chunk, piece = interval(it['chunk']), interval(it['itvl'])
        needs(chunk and piece and chunk[0] <= piece[0] and piece[1] <= chunk[1], 'Q4')
        asked.append((chunk, it['ver'], it['part'], piece))
    for place, (chunk, version, part, piece) in enumerate(asked):
        for other in asked[:place]:
            same = other[:3] == (chunk, version, part)
            needs(not (same and other[3][0] < piece[1] and piece[0] < other[3][1]), 'Q4')
    return asked


def read_subquery(body):
    return query_at(body, lambda value: {
        'asked': read_asked(value.get('intervals')),
        'intervals': intervals_of(value.get('queryIntervals'), 'queryIntervals')})


# What is answered

def groups_of(query, rows):
    """The bucket, the values and the numbers of each group, in order."""
    earliest = min(start for start, _ in query['intervals'])
    length = LENGTHS.get(query['granularity'])
    groups = {}
    for row in rows:
        bucket = row[0] // length * length if length else earliest
        groups.setdefault((bucket, tuple(row[1].get(name) for name, _ in query['dimensions'])), []).append(row)

    def number(kind, field, of_group):
        if kind == 'count':
            return len(of_group)
        reported = [row[2][field] for row in of_group if row[2].get(field) is not None]
        if not reported:
            return None
        return {'longMin': min, 'longMax': max}.get(kind, lambda all_of_them: (sum(all_of_them) + 2**63) % 2**64 - 2**63)(reported)

    def place(key):
        return key[0], [(value is not None, (value or '').encode()) for value in key[1]]
    return [(key[0], list(key[1]), [number(kind, field, groups[key]) for kind, _, field in query['aggregations']])
            for key in sorted(groups, key=place)]


def result(query, rows):
    shown = []
    names = [name for _, name in query['dimensions']] + [name for _, name, _ in query['aggregations']]
    for bucket, values, numbers in groups_of(query, rows):
        of_group = dict(zip(names, values + numbers))
        shown.append({'result': of_group, 'timestamp': printed(bucket)} if query['kind'] == 'timeseries'
                     else {'event': of_group, 'timestamp': printed(bucket), 'version': 'v1'})
    return text(shown)


def passing(query, rows):
    return [row for row in rows if query['passes'] is None or query['passes'](row)]


def chunks_shown(query, segments):
    """The complete chunks of the query's source, their segments by (version, start, end), and which of them is visible at an instant."""
    chunks = {}
    for it in segments:
        if it['source'] == query['source']:
            chunks.setdefault((it['version'], it['start'], it['end']), []).append(it)
    complete = {key: members for key, members in chunks.items()
                if set(range(max(it['core'] for it in members))) <= {it['part'] for it in members}}
    return complete, lambda time: max((key for key in complete if key[1] <= time < key[2]), default=None)


def visible_rows(query, segments):
    """The rows that a query is over, each with its segment's version, start, end and partition."""
    complete, visible = chunks_shown(query, segments)
    return [(row, (*key, it['part'])) for key, members in complete.items() for it in members for row in it['rows']
            if visible(row[0]) == key and any(start <= row[0] < end for start, end in query['intervals'])]


def answer(query, segments):
    """What a broker answers over these segments, one of each identifier: at each instant the complete chunk of the highest version."""
    return result(query, passing(query, [row for row, _ in visible_rows(query, segments)]))


def fault_of(query, segments, status, body):
    """What is wrong with an answer of a broker over these segments, whose nodes may fail; None where nothing is.

    It is 200 and exact, or 503 with slices of visible segments as missing, in order and none twice, and the exact answer over the rest.
    """
    if status == 200:
        wanted = answer(query, segments)
        return None if body == wanted else f'the rules answer {wanted}'
    if status != 503:
        return 'a query that reads is answered 200 or 503'
    missing, (complete, visible) = json.loads(body)['missing'], chunks_shown(query, segments)
    slices = [((it['ver'], *interval(it['chunk']), it['part']), *interval(it['itvl'])) for it in missing]
    if not slices or slices != sorted(set(slices), key=lambda it: (it[1], it[0][3])):
        return 'nothing is missing, or twice, or in another order'
    for (*chunk, part), start, end in slices:
        if not visible(start) == visible(end - 1) == tuple(chunk) or part not in {it['part'] for it in complete[tuple(chunk)]}:
            return 'a slice is missing that is not visible'
    rows = [row for row, key in visible_rows(query, segments) if not any(key == it and start <= row[0] < end for it, start, end in slices)]
    wanted = text({'error': 'SegmentsMissing', 'missing': missing, 'partial': json.loads(result(query, passing(query, rows)))})
    return None if body == wanted else f'the rules answer {wanted}, with that missing'


def node_answer(query, segments):
    """What a node that holds these segments answers to a subquery. Of a tombstone it has no rows, so its piece is missing."""
    held = {((it['start'], it['end']), it['version'], it['part']): it for it in segments
            if it['source'] == query['source'] and not it.get('tombstone')}
    missing = [{'chunk': span(*chunk), 'itvl': span(*piece), 'part': part, 'ver': version}
               for chunk, version, part, piece in query['asked'] if (chunk, version, part) not in held]
    rows = [row for chunk, version, part, piece in query['asked'] if (chunk, version, part) in held
            for row in held[chunk, version, part]['rows'] if piece[0] <= row[0] < piece[1]]
    return text({'missing': missing, 'rows': [list(group) for group in groups_of(query, passing(query, rows))]})


# Segments, their files, and what a node tells of them

def identifier(segment):
    front = f"{segment['source']}_{printed(segment['start'])}_{printed(segment['end'])}_{segment['version']}"
    return f"{front}_{segment['part']}" if segment['part'] else front


def segment_file(segment, by_columns=False):
    def short(it):
        return bytes([len(it.encode())]) + it.encode()

    def value(it):
        return b'\0' if it is None else b'\1' + struct.pack('>H', len(it.encode())) + it.encode()
    parts = [b'DSG2' if by_columns else b'DSG1', short(segment['source']), struct.pack('>qq', segment['start'], segment['end']),
             short(segment['version']), struct.pack('>HHQ', segment['part'], segment['core'], 0)]
    for names in (segment['dims'], segment['mets']):
        parts += [bytes([len(names)]), *map(short, names)]
    parts.append(struct.pack('>I', len(segment['rows'])))
    if by_columns:
        return b''.join(parts) + columns(segment)
    for time, values, numbers in segment['rows']:
        parts.append(struct.pack('>q', time))
        parts += [value(values[name]) for name in segment['dims']]
        parts += [b'\0' if numbers[name] is None else b'\1' + struct.pack('>q', numbers[name]) for name in segment['mets']]
    return b''.join(parts)


def columns(segment):
    """The rows of a file by columns: instants, of each dimension its values and a code a row, of each metric marks and numbers."""
    rows = segment['rows']
    parts = [struct.pack('>q', time) for time, _, _ in rows]
    for name in segment['dims']:
        reported = [None if values[name] is None else values[name].encode() for _, values, _ in rows]
        known = sorted(set(reported) - {None})
        parts += [struct.pack('>I', len(known)), *(struct.pack('>H', len(it)) + it for it in known)]
        parts += [struct.pack('>I', 0 if it is None else 1 + known.index(it)) for it in reported]
    for name in segment['mets']:
        reported = [numbers[name] for _, _, numbers in rows]
        parts += [b'\0' if it is None else b'\1' for it in reported] + [struct.pack('>q', it) for it in reported if it is not None]
    return b''.join(parts)


def load_of(segment):
    return {'action': 'load', 'dataSource': segment['source'], 'interval': span(segment['start'], segment['end']),
            'shardSpec': {'partitionNum': segment['part'], 'partitions': segment['core'], 'type': 'numbered'},
            'size': 0, **({'tombstone': True} if segment.get('tombstone') else {}), 'version': segment['version']}


def chunk_of(segment):
    """How a config names a tombstone."""
    return {'dataSource': segment['source'], 'interval': span(segment['start'], segment['end']), 'version': segment['version']}


def read_ask(query_string):
    """None for all, a mark as (count, incarnation), or False where it is refused."""
    pairs = [part.partition('=')[::2] for part in query_string.split('&') if part]
    counts, hashes = ([value for key, value in pairs if key == name] for name in ('counter', 'hash'))
    if not hashes and counts in ([], ['-1']):
        return None
    numbers = [int(it) for it in counts + hashes if re.match(r'(0|[1-9][0-9]*)\Z', it) and int(it) < 2**64]
    return tuple(numbers) if len(counts) == len(hashes) == 1 and len(numbers) == 2 and numbers[1] else False


def reply(ask, loaded, kept):
    """What a node of incarnation 1 answers, which loaded these segments and keeps so many changes: the status and the body."""
    if ask is False:
        return 400, '{"error":"Y6"}'
    end = len(loaded)
    reported = {'counter': {'counter': end, 'hash': 1}, 'from': None, 'requests': [], 'resetCause': None, 'resetCounter': False}
    if ask is None:
        reported['requests'] = [load_of(it) for it in sorted(loaded, key=lambda it: identifier(it).encode())]
        return 200, text(reported)
    count, incarnation = ask
    cause = ('OtherIncarnation' if incarnation != 1 else 'Ahead' if count > end else 'TooOld' if end - count > kept else None)
    if cause:
        return 200, text({**reported, 'resetCause': cause, 'resetCounter': True})
    return 200, text({**reported, 'from': {'counter': count, 'hash': 1}, 'requests': [load_of(it) for it in loaded[count:]]})
