#!/usr/bin/env python3
"""Makes segment files for data nodes out of a CSV, and shows what segment files and the tombstones of a config hold.

    python3 tools/make_segments.py make --source orders --version v1 --time time --dimensions country,product \\
        --metrics items,cents --by day --rows 20 --out some/folder examples/cluster/first.csv
    python3 tools/make_segments.py show some/folder/*.seg some/config.json

With `--columns` files have the layout `DSG2`: each text once for a dimension, and rows by column. Nodes answer the same of both.

The CSV is UTF-8, and its first line names its columns; those that no option names are left out. Rows keep the order of the CSV:
each hour or day that has rows becomes a chunk, cut into partitions of so many rows, all of them core ones. A file states its own
length as its size. Where a line of the CSV is bad nothing is written. The formats are those of docs/FORMATS.md.
"""
import argparse, codecs, csv, io, json, os, re, signal, struct, sys
from datetime import date
from typing import NamedTuple

FIRST, LAST = -62_167_219_200_000, 253_402_300_799_999
DAY = 86_400_000
LENGTHS = {'hour': 3_600_000, 'day': DAY}
MAX_FIELDS, MAX_CORE, MAX_ROWS, MAX_VALUE, MAX_FILE = 64, 32_768, 100_000, 1_024, 16_777_216

NAME = re.compile(r'[A-Za-z0-9_.-]{1,100}')
VERSION = re.compile(r'(?:(?![_/"\\])[!-~]){1,64}')
FIELD = re.compile(r'[A-Za-z0-9_]{1,100}')
NUMBER = re.compile(r'-?[0-9]+')
TIME = re.compile(r'([0-9]{4})-([0-9]{2})-([0-9]{2})(?:T([0-9]{2}):([0-9]{2})(?::([0-9]{2})(?:\.([0-9]{3}))?)?Z?)?')


class Refused(Exception):
    """What is wrong with a file, in one line."""


class Segment(NamedTuple):
    source: str
    start: int
    end: int
    version: str
    partition: int
    core: int
    size: int
    dimensions: list  # Names, and so are the metrics.
    metrics: list
    rows: list  # Of a time, a list of texts and a list of numbers, each of which may be None.

    def identifier(self):
        partition = f'_{self.partition}' if self.partition else ''
        return f'{self.source}_{printed_time(self.start)}_{printed_time(self.end)}_{self.version}{partition}'


# The calendar repeats after 400 years, and Python's begins with the year 1: dates are moved to the years from 2000 on.
CYCLE = 146_097


def days_of(year, month, day):
    return date(2000 + year % 400, month, day).toordinal() - date(1970, 1, 1).toordinal() + (year // 400 - 5) * CYCLE


def printed_time(ms):
    days, rest = divmod(ms, DAY)
    cycle, days = divmod(days - days_of(2000, 1, 1), CYCLE)
    then = date.fromordinal(date(2000, 1, 1).toordinal() + days)
    hours, rest = divmod(rest, 3_600_000)
    return (f'{then.year + 400 * cycle:04}-{then.month:02}-{then.day:02}'
            f'T{hours:02}:{rest // 60_000:02}:{rest // 1000 % 60:02}.{rest % 1000:03}Z')


# Cells of a CSV.

def quoted(text):
    return repr(text if len(text) <= 40 else text[:40] + '..')


def whole_number(text, least, greatest):
    if not NUMBER.fullmatch(text):
        raise ValueError(f'{quoted(text)} is no whole number')
    if len(text) > 1000 or not least <= int(text) <= greatest:
        raise ValueError(f'{quoted(text)} is not within {least} and {greatest}')
    return int(text)


def number_of(text):
    return whole_number(text, -2**63, 2**63 - 1) if text else None


def value_of(text):
    if len(text.encode()) > MAX_VALUE:
        raise ValueError(f'{quoted(text)} has {len(text.encode()):,} bytes, more than {MAX_VALUE:,}')
    return text or None


def time_of(text, length):
    """The milliseconds since 1970 of an instant that lies in a whole chunk of that length."""
    if NUMBER.fullmatch(text):
        ms = whole_number(text, FIRST, LAST)
    else:
        shape = TIME.fullmatch(text)
        if not shape:
            raise ValueError(f'{quoted(text)} is no time in UTC, such as 2024-05-01T08:30:00Z or 1714552200000')
        year, month, day, hour, minute, second, ms = (int(part or 0) for part in shape.groups())
        if not 1 <= month <= 12 or not 1 <= day <= 31 or hour > 23 or minute > 59 or second > 59:
            raise ValueError(f'there is no time {quoted(text)}')
        try:
            ms += days_of(year, month, day) * DAY + hour * 3_600_000 + minute * 60_000 + second * 1000
        except ValueError:
            raise ValueError(f'there is no day {quoted(text)}') from None
    if ms - ms % length + length > LAST:
        raise ValueError(f'{quoted(text)} lies in the last chunk of the year 9999, which has no end')
    return ms


# Rows of a CSV.

def text_of(path):
    with open(path, 'rb') as f:
        given = f.read().removeprefix(codecs.BOM_UTF8)
    try:
        return given.decode()
    except UnicodeDecodeError as fault:
        line = given.count(b'\n', 0, fault.start) + 1
        raise Refused(f'{path}:{line}: bytes that are not UTF-8') from None


def records(path):
    """The lines of a CSV that are not blank: their numbers and their cells."""
    reader = csv.reader(io.StringIO(text_of(path), newline=''), strict=True)
    line = 1
    try:
        for cells in reader:
            if cells:
                yield line, cells
            line = reader.line_num + 1
    except csv.Error as fault:
        raise Refused(f'{path}:{line}: {fault}') from None


def place_of(path, line, header, column):
    if header.count(column) != 1:
        raise Refused(f'{path}:{line}: ' + (f'column {column} stands there twice' if column in header else f'no column {column}'))
    return header.index(column)


def rows_of(path, time, dimensions, metrics, length):
    lines = records(path)
    line, header = next(lines, (1, []))
    columns = ([(time, lambda text: time_of(text, length))] + [(name, value_of) for name in dimensions]
               + [(name, number_of) for name in metrics])
    columns = [(name, place_of(path, line, header, name), read) for name, read in columns]
    rows = []
    for line, cells in lines:
        if len(cells) != len(header):
            raise Refused(f'{path}:{line}: {len(cells)} cells where the header has {len(header)}')
        values = []
        for name, place, read in columns:
            try:
                values.append(read(cells[place]))
            except ValueError as fault:
                raise Refused(f'{path}:{line}: column {name}: {fault}') from None
        rows.append((values[0], values[1:len(dimensions) + 1], values[len(dimensions) + 1:]))
    if not rows:
        raise Refused(f'{path}:{line}: no rows after the header')
    return rows


# Segments and their bytes.

def segments_of(rows, source, version, dimensions, metrics, length, most):
    """A segment for each so many rows of a chunk, of no stated size."""
    chunks = {}
    for row in rows:
        chunks.setdefault(row[0] // length * length, []).append(row)
    for start, held in sorted(chunks.items()):
        core = -(-len(held) // most)
        if core > MAX_CORE:
            raise Refused(f'the chunk of {printed_time(start)} has {core:,} partitions, more than {MAX_CORE:,}: take more --rows')
        for partition in range(core):
            part = held[partition * most:(partition + 1) * most]
            yield Segment(source, start, start + length, version, partition, core, 0, dimensions, metrics, part)


def short_text(text):
    return bytes([len(text)]) + text.encode()


def names_bytes(names):
    return bytes([len(names)]) + b''.join(map(short_text, names))


def row_bytes(row):
    time, texts, numbers = row
    out = struct.pack('>q', time)
    for text in texts:
        spelled = None if text is None else text.encode()
        out += b'\0' if spelled is None else b'\1' + struct.pack('>H', len(spelled)) + spelled
    for number in numbers:
        out += b'\0' if number is None else b'\1' + struct.pack('>q', number)
    return out


def column_bytes(values):
    """A dimension by its dictionary: how many texts, the texts rising by their bytes, and a code for each row, 0 for null."""
    texts = sorted({value.encode() for value in values if value is not None})
    codes = {text: code for code, text in enumerate(texts, 1)}
    return (struct.pack('>I', len(texts)) + b''.join(struct.pack('>H', len(text)) + text for text in texts)
            + b''.join(struct.pack('>I', 0 if value is None else codes[value.encode()]) for value in values))


def numbers_bytes(numbers):
    """A metric: a mark for each row, and then the numbers that there are."""
    return (bytes(number is not None for number in numbers)
            + b''.join(struct.pack('>q', number) for number in numbers if number is not None))


def rows_bytes(segment):
    return b''.join(map(row_bytes, segment.rows))


def columns_bytes(segment):
    return (b''.join(struct.pack('>q', time) for time, _, _ in segment.rows)
            + b''.join(column_bytes([texts[place] for _, texts, _ in segment.rows]) for place in range(len(segment.dimensions)))
            + b''.join(numbers_bytes([numbers[place] for _, _, numbers in segment.rows]) for place in range(len(segment.metrics))))


def encoded(segment, sized=False, by_columns=False):
    """The bytes of a segment's file, which state the segment's size, or their own length."""
    before = ((b'DSG2' if by_columns else b'DSG1') + short_text(segment.source) + struct.pack('>qq', segment.start, segment.end)
              + short_text(segment.version) + struct.pack('>HH', segment.partition, segment.core))
    after = (names_bytes(segment.dimensions) + names_bytes(segment.metrics) + struct.pack('>I', len(segment.rows))
              + (columns_bytes if by_columns else rows_bytes)(segment))
    size = len(before) + 8 + len(after) if sized else segment.size
    return before + struct.pack('>Q', size) + after


def file_of(segment, by_columns=False):
    """The bytes of a file, within the limit by rows too, which both layouts have to keep."""
    data = encoded(segment, sized=True, by_columns=by_columns)
    most = max(len(data), len(encoded(segment)))
    if most > MAX_FILE:
        raise Refused(f'{segment.identifier()} has {most:,} bytes, more than {MAX_FILE:,}: take fewer --rows')
    return data


class Parts:
    """What is left of the bytes of a file."""

    def __init__(self, data):
        self.data, self.place = data[:MAX_FILE], 0
        self.short = 'F5: more bytes than a segment file may have' if len(data) > MAX_FILE else 'F2: it ends inside a part'
        self.is_longer = len(data) > MAX_FILE

    def take(self, count):
        part = self.data[self.place:self.place + count]
        if len(part) < count:
            raise Refused(self.short)
        self.place += count
        return part

    def number(self, form):
        return struct.unpack('>' + form, self.take(struct.calcsize('>' + form)))[0]

    def count(self, form, limit, what):
        number = self.number(form)
        if number > limit:
            raise Refused(f'F5: {number:,} {what}, more than {limit:,}')
        return number

    def text(self, form, limit, rule, what):
        spelled = self.take(self.count(form, limit, f'bytes of {what}'))
        try:
            text = spelled.decode()
        except UnicodeDecodeError:
            raise Refused(f'F3: {what} that is not UTF-8') from None
        if rule and not rule.fullmatch(text):
            raise Refused(f'F3: {what} that is none: {quoted(text)}')
        return text

    def instant(self):
        ms = self.number('q')
        if not FIRST <= ms <= LAST:
            raise Refused('F3: an interval that is not within the years 0000 to 9999')
        return ms

    def names(self, others):
        names = []
        for _ in range(self.count('B', MAX_FIELDS, 'columns')):
            name = self.text('B', 100, FIELD, 'the name of a column')
            if name in names or name in others:
                raise Refused(f'F3: two columns named {name}')
            names.append(name)
        return names

    def value(self, read):
        mark = self.number('B')
        if mark > 1:
            raise Refused(f'F3: a mark of {mark}')
        return read() if mark else None

    def time(self, start, end):
        time = self.number('q')
        if not start <= time < end:
            raise Refused('F4: a row outside the interval')
        return time

    def row(self, start, end, dimensions, metrics):
        time = self.time(start, end)
        texts = [self.value(lambda: self.text('H', MAX_VALUE, None, 'a value')) for _ in dimensions]
        return time, texts, [self.value(lambda: self.number('q')) for _ in metrics]

    def column(self, rows):
        texts = [None]
        for _ in range(self.count('I', rows, 'values of a dimension')):
            text = self.text('H', MAX_VALUE, None, 'a value')
            if len(texts) > 1 and text.encode() <= texts[-1].encode():
                raise Refused('F3: values of a dimension that do not rise')
            texts.append(text)
        codes = []
        for _ in range(rows):
            codes.append(self.number('I'))
            if codes[-1] >= len(texts):
                raise Refused(f'F3: a code of {codes[-1]:,} where there are {len(texts) - 1:,} values')
        if len({0, *codes}) < len(texts):
            raise Refused('F3: a value that no row has')
        return [texts[code] for code in codes]

    def numbers(self, rows):
        marks = []
        for _ in range(rows):
            marks.append(self.number('B'))
            if marks[-1] > 1:
                raise Refused(f'F3: a mark of {marks[-1]}')
        return [self.number('q') if mark else None for mark in marks]

    def columns(self, start, end, dimensions, metrics, rows):
        """The rows of a file by columns."""
        times = [self.time(start, end) for _ in range(rows)]
        texts = [self.column(rows) for _ in dimensions]
        numbers = [self.numbers(rows) for _ in metrics]
        return [(time, [column[row] for column in texts], [column[row] for column in numbers]) for row, time in enumerate(times)]


def decoded(data):
    """The segment that a file of these bytes is. Refused with the fault's number, as docs/FORMATS.md has them."""
    parts = Parts(data)
    magic = parts.take(4)
    if magic not in (b'DSG1', b'DSG2'):
        raise Refused('F1: it begins with neither DSG1 nor DSG2')
    source = parts.text('B', 100, NAME, 'the name of a source')
    start, end = parts.instant(), parts.instant()
    if start >= end:
        raise Refused('F3: an empty interval')
    version = parts.text('B', 64, VERSION, 'a version')
    partition, core = parts.number('H'), parts.number('H')
    if core > MAX_CORE:
        raise Refused(f'F3: {core:,} core partitions, more than {MAX_CORE:,}')
    size = parts.number('Q')
    dimensions = parts.names([])
    metrics = parts.names(dimensions)
    count = parts.count('I', MAX_ROWS, 'rows')
    if magic == b'DSG2':
        rows = parts.columns(start, end, dimensions, metrics, count)
    else:
        rows = [parts.row(start, end, dimensions, metrics) for _ in range(count)]
    segment = Segment(source, start, end, version, partition, core, size, dimensions, metrics, rows)
    if magic == b'DSG2' and len(encoded(segment)) > MAX_FILE:
        raise Refused('F5: more bytes by rows than a segment file may have')
    if parts.is_longer or parts.place < len(parts.data):
        raise Refused('F6: bytes after the last row')
    return segment


# The commands.

def counted(rows):
    return f'{len(rows):,} row' + ('' if len(rows) == 1 else 's')


def make(asked):
    length = LENGTHS[asked.by]
    rows = rows_of(asked.csv, asked.time, asked.dimensions, asked.metrics, length)
    segments = segments_of(rows, asked.source, asked.version, asked.dimensions, asked.metrics, length, asked.rows)
    made = [(segment, file_of(segment, asked.columns)) for segment in segments]
    os.makedirs(asked.out, exist_ok=True)
    for segment, data in made:
        name = segment.identifier() + '.seg'
        path = os.path.join(asked.out, name)
        # A node that watches the folder sees the whole file or none.
        with open(path + '.part', 'wb') as f:
            f.write(data)
        os.replace(path + '.part', path)
        print(f'{name}: {segment.identifier()}, {counted(segment.rows)}')


def cell_of(value):
    """A value in a table: null is `-`, and a text that could be taken for another one stands in quotes."""
    if value is None:
        return '-'
    text = str(value)
    is_plain = text.isprintable() and text == text.strip() and text not in ('', '-') and not text.startswith('"')
    return text if is_plain else json.dumps(text)


def print_table(lines):
    widths = [max(map(len, column)) for column in zip(*lines)]
    for line in lines:
        print('  ' + '  '.join(cell.ljust(width) for cell, width in zip(line, widths)).rstrip())


def show_file(path):
    with open(path, 'rb') as f:
        segment = decoded(f.read(MAX_FILE + 1))
    size = f', size {segment.size:,}' if segment.size else ''
    print(f'{path}: {segment.identifier()}')
    print(f'  core {segment.core}{size}, {counted(segment.rows)}; '
          f'dimensions: {", ".join(segment.dimensions) or "none"}; metrics: {", ".join(segment.metrics) or "none"}')
    print_table([['time', *segment.dimensions, *segment.metrics]] + [
        [printed_time(time), *map(cell_of, texts), *map(cell_of, numbers)] for time, texts, numbers in segment.rows])


def show_config(path):
    """The tombstones of a config's nodes, which have no files."""
    try:
        config = json.loads(text_of(path))
        for node in config['nodes']:
            for tombstone in node.get('tombstones') or []:
                start, end = (time_of(text, 1) for text in tombstone['interval'].split('/'))
                shown = Segment(tombstone['dataSource'], start, end, tombstone['version'], 0, 1, 0, [], [], [])
                print(f'{path}: {node["name"]}: {shown.identifier()}')
                print('  a tombstone: no file, no rows')
    except (ValueError, KeyError, TypeError, AttributeError) as fault:
        raise Refused(f'{type(fault).__name__}: {fault}') from None


def show(asked):
    status = 0
    for path in asked.files:
        what, show_one = ('config', show_config) if path.endswith('.json') else ('segment file', show_file)
        try:
            show_one(path)
        except Refused as fault:
            print(f'{path}: no {what}: {fault}', file=sys.stderr)
            status = 1
    sys.exit(status)


# The words that it is called with.

def kind_of(rule, what):
    def read(text):
        if not rule.fullmatch(text):
            raise argparse.ArgumentTypeError(f'{quoted(text)} is no {what}')
        return text
    return read


def columns_of(text):
    names = text.split(',') if text else []
    if len(names) > MAX_FIELDS:
        raise argparse.ArgumentTypeError(f'{len(names)} columns, more than {MAX_FIELDS}')
    return [kind_of(FIELD, 'name of a column: 1 to 100 of A-Z a-z 0-9 _')(name) for name in names]


def count_of(text):
    try:
        return whole_number(text, 1, MAX_ROWS)
    except ValueError as fault:
        raise argparse.ArgumentTypeError(str(fault)) from None


def add_make(commands):
    maker = commands.add_parser('make', help='make segment files', description='Makes segment files out of a CSV.')
    maker.set_defaults(run=make)
    option = lambda name, **more: maker.add_argument(name, required=True, **more)
    option('--source', type=kind_of(NAME, 'name of a source: 1 to 100 of A-Z a-z 0-9 _ - .'), help='the data source')
    option('--version', type=kind_of(VERSION, 'version: 1 to 64 of printable ASCII without _ / " \\'),
           help='such as v1; of two versions the greater text is visible, so v10 lies under v9')
    option('--time', metavar='COLUMN', help='a column of times in UTC: 2024-05-01, 2024-05-01T08:30, 2024-05-01T08:30:00Z, '
           '2024-05-01T08:30:00.000Z (Z may be left out), or milliseconds since 1970')
    option('--dimensions', type=columns_of, metavar='A,B', help="columns of texts, each of up to 1,024 bytes of UTF-8, or '' for "
           'no columns; an empty cell is null')
    option('--metrics', type=columns_of, metavar='C,D', help="columns of whole numbers from -2^63 to 2^63 - 1, or '' for no "
           'columns; an empty cell is null')
    option('--by', choices=LENGTHS, help='how long a chunk is')
    option('--rows', type=count_of, metavar='N', help='how many rows a partition has at most, 1 to 100,000')
    option('--out', metavar='FOLDER', help='where the files go; files of the same names are replaced')
    maker.add_argument('--columns', action='store_true', help='write rows by columns, layout DSG2')
    maker.add_argument('csv', metavar='CSV')
    return maker


def words():
    parser = argparse.ArgumentParser(description='Makes segment files out of a CSV, and shows what segment files and configs hold.')
    commands = parser.add_subparsers(dest='command', required=True)
    maker = add_make(commands)
    shower = commands.add_parser('show', help='show what segment files hold, and the tombstones of a config (.json)',
                                 description='Shows what segment files hold, and the tombstones of a config (.json).')
    shower.set_defaults(run=show)
    shower.add_argument('files', nargs='+', metavar='FILE')
    asked = parser.parse_args()
    if asked.command == 'make' and len(set(asked.dimensions + asked.metrics)) < len(asked.dimensions + asked.metrics):
        maker.error('a column stands twice among --dimensions and --metrics')
    return asked


def main():
    signal.signal(signal.SIGPIPE, signal.SIG_DFL)
    asked = words()
    try:
        asked.run(asked)
    except Refused as fault:
        sys.exit(str(fault))
    except OSError as fault:
        sys.exit(f'{fault.filename}: {fault.strerror}')


if __name__ == '__main__':
    main()
