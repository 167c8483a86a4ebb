"""The segment trace analyser: every call of include/segtrace.h with Python's types, over the library that tools/shared-library makes.

A sheet is bytes, or anything that lends bytes; a str is encoded as UTF-8. A sheet has ASCII characters alone, and any other becomes bytes
that the reader refuses where they stand. Read a file as bytes, open(name, 'rb'): as text, Python would change its line ends. Sheets and
schedules are given back as bytes, the listing and the page as str. Rows and segments count from 0, steps and references from 1.

A call that is refused raises Refused, with its number and words. The sheet's refusals are 1 to 6, 16 and 19; each call below says which
others it has. A number of any size is taken: one that the C interface could not be told of lies outside its range, and is refused as such.
What is no whole number is a TypeError. Places are as large as the limits say, so no call is ever refused with 11.

    >>> import segtrace
    >>> sheet = segtrace.SMALL
    >>> segtrace.figures(sheet, 0).misses
    3

The library is the file that SEGTRACE_LIBRARY names, else libsegtrace.so beside this file, else ../target/lib/libsegtrace.so. It is loaded
by the first call. Calls may run in several threads at once; a Recorder belongs to one thread at a time. Python 3.9 or newer, on x86-64
Linux. On the command line, `python3 -m segtrace FILE` prints the listing of a sheet.
"""
import ctypes
import functools
import operator
import os
import sys
from ctypes import POINTER, byref, c_char, c_char_p, c_int64, c_size_t, c_uint16, c_uint64
from typing import NamedTuple

# The limits of include/segtrace.h: bytes of a sheet of a form and of any, of a listing, two pages and a schedule; and how many of each.
SHEET_BYTES_FORM_1, SHEET_BYTES_FORM_2, SHEET_BYTES_FORM_3, SHEET_BYTES = 20012, 29163, 31366, 33414
LISTING_BYTES, PAGE_BYTES, SCHEDULE_BYTES = 13158, 8760, 65536
ROWS, STEPS, SEGS, POINTS = 64, 2048, 256, 2048
MAX_RATE, MAX_MINIMUM = 9999, 99999

# Four references of two segments, of sizes 1 and 3, for the examples of this file.
SMALL = b'kind=space\na=1\nsegs=2\nsize=1\nsize=3\nrows=2\nrow=1/2\nrow=1/1\nrefs=4\nref=0\nref=1\nref=0\nref=1\n'

# Of each refusal: when it is given, and what to do. The words are those of docs/GUIDE.md, "Refusals".
REFUSALS = {
    1: ('the sheet is longer than its form may be: 20,012 bytes, or 29,163 where its first line is form=2, 31,366 where it is form=3, '
        '33,414 where it is form=4',
        'look for leading zeros, blanks or lines that do not belong there: no valid sheet is longer'),
    2: ('a line is missing, lacks its line feed, or does not begin with its key and =',
        'compare the lines with the order in docs/GUIDE.md, the counts segs=, rows=, warm=, refs= with the lines below them, and the last '
        "line's end"),
    3: ('the value is no kind word, no number without sign and leading zero, for a row not two numbers around /, or for a touch from form '
        '2 on not two around @, in form 4 with or without a letter w',
        'write the number plainly; take out carriage returns and blanks'),
    4: ('a number lies outside its range; a form that is unknown or that the call is not made for; a recorder is told of a segment not '
        'below segs',
        'see the ranges in docs/GUIDE.md; convert the sheet, or take the call of its form'),
    5: ("a row's threshold h/d does not exceed the one before", 'sort the rows by h/d and leave equal ones out'),
    6: ('bytes follow the last line', 'set refs= to the number of ref= lines; take out empty lines at the end'),
    7: ('the row asked for is not below rows', 'rows count from 0'),
    8: ('a schedule handed in does not have 32 × steps bytes', '32 bytes for each step, idle ones too'),
    9: ('in the earliest faulty step the touched segment is not held', 'set its bit in that step'),
    10: ('in that step it is held, or the step is idle, but another is held that was not held before',
         'a segment enters only by a touch, or is warm and held from step 1 on'),
    11: ('the lent place is shorter than the result', 'lend as much as the constants of include/segtrace.h say; it always suffices'),
    12: ('sizing: the optmem of every row exceeds the ceiling', 'a higher ceiling, or a row with a lower threshold'),
    13: ('the recorder already has 2,048 steps', 'start another'),
    14: ('the reference asked for is not from 1 to refs', 'references count from 1; idle steps do not count'),
    15: ('the reference is a first touch of a segment that is not warm, and has no margin', 'ask for a reuse'),
    16: ('the step of a touch is not above the one before, or lies beyond steps',
         'sort the touches by step; one touch a step; steps count from 1'),
    17: ('converting to form 1: a step is idle', 'form 1 has no idle steps: stay with form 2'),
    18: ('a rate or the minimum of a bill lies outside its range, 0 to 9,999 and 0 to 99,999', 'rates and the minimum are cents'),
    19: ('a warm segment is not above the one before', 'sort the hold= lines, each segment once'),
    20: ('joining: kind, a or a row line differs, or the number of rows', 'write the rows alike: 1/2 and 2/4 differ'),
    21: ('joining: both sheets touch at one step', 'shift one of the two on the clock'),
    22: ('joining: together the sheets have more than 256 segments', 'leave out segments that are never touched'),
    23: ('importing: k is not from 8 to 24', 'pages have 256 bytes to 16 MB'),
    24: ('importing: a line of the trace is malformed', 'a label 0, 1 or 2, one blank, 1 to 8 hexadecimal digits, a line feed'),
    25: ('importing: a 257th page or a 2,049th line arrives', 'a part of the trace, or larger pages'),
    26: ('LRU and windows: a size is not 1', 'set every size to 1, if frames are meant'),
    27: ('LRU and windows: a warm segment is named', 'leave the warm segments out'),
    28: ('windows: the kind is not time, or a is not 0; before 26 and 27', 'kind=time and a=0'),
}


class Refused(Exception):
    """A call was refused: `number`, when that is given (`words`) and what to do (`advice`).

    >>> try:
    ...     figures(SMALL, 2)
    ... except Refused as refusal:
    ...     print(refusal)
    refused=7: the row asked for is not below rows (rows count from 0)
    """

    def __init__(self, number):
        super().__init__(number)
        self.number = number
        self.words, self.advice = REFUSALS[number]

    def __str__(self):
        return f'refused={self.number}: {self.words} ({self.advice})'


class Figures(NamedTuple):
    """The eleven figures of a row, in the listing's order."""
    h: int
    d: int
    misses: int
    volume: int
    load: int
    optmem: int
    opttotal: int
    optocc: int
    wsmem: int
    wsocc: int
    mean: int


class Price(NamedTuple):
    """What a schedule costs at a row."""
    memory: int
    load: int
    total: int


class Point(NamedTuple):
    """An operating point: the threshold r/w, and what the optimal schedule costs there."""
    r: int
    w: int
    optmem: int
    load: int


class Lru(list):
    """The misses with 1, 2, .. frames; `looked` has the entries of the recency list that were looked at."""

    def __init__(self, misses, looked):
        super().__init__(misses)
        self.looked = looked


# The library: where it is, and the types of its calls.

_BYTES, _NUMBERS = (c_char_p, c_size_t), (POINTER(c_uint64), c_size_t)
_NUMBER = POINTER(c_uint64)
_OUT_BYTES, _OUT_NUMBERS = _BYTES + (_NUMBER,), _NUMBERS + (_NUMBER,)

# What follows the sheet in each call.
_CALLS = {
    'check': (),
    'rewrite': _OUT_BYTES,
    'to_form_2': _OUT_BYTES,
    'to_form_1': _OUT_BYTES,
    'join': _BYTES + _OUT_BYTES,
    'import_din': (c_uint64,) + _BYTES + _OUT_BYTES,
    'figures': (c_uint64, _NUMBER),
    'all_figures': _OUT_NUMBERS,
    'listing': _OUT_BYTES,
    'page': _OUT_BYTES,
    'optimal_schedule': (c_uint64,) + _OUT_BYTES,
    'modified_schedule': (c_uint64,) + _OUT_BYTES,
    'price': (c_uint64,) + _BYTES + (_NUMBER,),
    'margin': (c_uint64, c_uint64, POINTER(c_int64)),
    'size': (c_uint64, _NUMBER),
    'lru': _OUT_NUMBERS + (_NUMBER,),
    'lru_plain': _OUT_NUMBERS,
    'windows': _OUT_NUMBERS,
    'points': _OUT_NUMBERS,
    'bill': (c_uint64,) * 4 + (_NUMBER,),
}


def _path():
    """The file of the library, or an OSError that says how to make it."""
    named = os.environ.get('SEGTRACE_LIBRARY')
    if named:
        return named
    folder = os.path.dirname(os.path.realpath(__file__))
    places = [os.path.join(folder, 'libsegtrace.so'), os.path.normpath(os.path.join(folder, '../target/lib/libsegtrace.so'))]
    for place in places:
        if os.path.exists(place):
            return place
    raise OSError(f'no library {" or ".join(places)}: make it by tools/shared-library of the repository, or name one by SEGTRACE_LIBRARY')


@functools.lru_cache(maxsize=None)
def _library():
    path = _path()
    try:
        library = ctypes.CDLL(path)
        for name, types in list(_CALLS.items()) + list(_RECORDER_CALLS.items()):
            call = getattr(library, 'segtrace_' + name)
            call.argtypes = types if name in _RECORDER_CALLS else _BYTES + types
            call.restype = c_uint64
    except OSError as fault:
        raise OSError(f'{path} cannot be loaded ({fault}): make it by tools/shared-library of the repository') from None
    except AttributeError as fault:
        raise OSError(f'{path} is of another version ({fault}): make it again by tools/shared-library of the repository') from None
    return library


def _call(name, *arguments):
    refusal = getattr(_library(), 'segtrace_' + name)(*arguments)
    if refusal:
        raise Refused(refusal)


# Arguments and results.

def _lent(content):
    """The bytes of a sheet, a schedule or a trace, and how many."""
    if isinstance(content, str):
        content = content.encode('utf-8', 'surrogatepass')
    elif not isinstance(content, bytes):
        content = memoryview(content).tobytes()
    return content, len(content)


def _whole(number, most=2**64 - 1):
    """A whole number; one that the C type does not have becomes its largest, which is outside every range too."""
    number = operator.index(number)
    return number if 0 <= number <= most else most


def _bytes(name, most, *arguments):
    out, written = (c_char * most)(), c_uint64()
    _call(name, *arguments, out, most, byref(written))
    return out[:written.value]


def _numbers(name, most, *arguments, more=()):
    out, written = (c_uint64 * most)(), c_uint64()
    _call(name, *arguments, out, most, byref(written), *more)
    return out[:written.value]


def _number(name, *arguments, kind=c_uint64):
    out = kind()
    _call(name, *arguments, byref(out))
    return out.value


def _records(kind, numbers):
    """The numbers of a list of records, as many each as the record has."""
    count = len(kind._fields)
    return [kind._make(numbers[n:n + count]) for n in range(0, len(numbers), count)]


def _record(kind, name, *arguments):
    out = (c_uint64 * len(kind._fields))()
    _call(name, *arguments, out)
    return kind._make(out)


# The calls.

def check(sheet):
    """Nothing, where the bytes are a sheet; its refusals.

    >>> check(SMALL)
    """
    _call('check', *_lent(sheet))


def rewrite(sheet):
    """The sheet read and written again: its own bytes. The sheet's refusals.

    >>> rewrite(SMALL) == SMALL
    True
    """
    return _bytes('rewrite', SHEET_BYTES, *_lent(sheet))


def to_form_2(sheet):
    """A sheet of form 1 in form 2. The sheet's refusals, where any other form is 4.

    >>> to_form_2(SMALL)[-32:]
    b'ref=0@1\\nref=1@2\\nref=0@3\\nref=1@4\\n'
    """
    return _bytes('to_form_2', SHEET_BYTES_FORM_2, *_lent(sheet))


def to_form_1(sheet):
    """A sheet of form 2 in form 1. The sheet's refusals, where any other form is 4; 17 where a step is idle.

    >>> to_form_1(to_form_2(SMALL)) == SMALL
    True
    """
    return _bytes('to_form_1', SHEET_BYTES_FORM_1, *_lent(sheet))


def join(first, second):
    """Two sheets of form 2 or 3 with the same kind, a and row lines as one of form 3 on the same clock, the second's segments after the
    first's. The first sheet's refusals, where any other form is 4, then the second's; 20 where kind, a or a row line differs, 21 where
    both touch at one step, 22 where together they have more than 256 segments.

    >>> one = b'form=2\\nkind=time\\na=0\\nsegs=1\\nsize=1\\nrows=1\\nrow=1/1\\nsteps=2\\nrefs=1\\nref=0@1\\n'
    >>> join(one, one.replace(b'@1', b'@2'))[-23:]
    b'refs=2\\nref=0@1\\nref=1@2\\n'
    """
    return _bytes('join', SHEET_BYTES_FORM_3, *_lent(first), *_lent(second))


def import_din(trace, k, sheet):
    """A din trace as a sheet of form 1 of kind time, a=0 and sizes 1, with the rows of a sheet. Each page of 2 to the power k bytes is a
    segment, numbered by first appearance. The sheet's refusals; 23 where k is not from 8 to 24; then, line by line, 24 for a malformed
    line and 25 for a 2,049th line or a 257th page.

    >>> import_din(b'2 80481a0\\n1 bffff2d4\\n2 80481a4\\n', 12, SMALL)[-18:]
    b'ref=0\\nref=1\\nref=0\\n'
    """
    return _bytes('import_din', SHEET_BYTES_FORM_1, *_lent(trace), _whole(k), *_lent(sheet))


def figures(sheet, row):
    """The Figures of a row. The sheet's refusals; 7.

    >>> figures(SMALL, 1)
    Figures(h=1, d=1, misses=2, volume=4, load=6, optmem=12, opttotal=18, optocc=12, wsmem=13, wsocc=13, mean=3250)
    """
    return _record(Figures, 'figures', *_lent(sheet), _whole(row))


def all_figures(sheet):
    """A list with the Figures of every row. The sheet's refusals.

    >>> [row.load for row in all_figures(SMALL)]
    [10, 6]
    """
    return _records(Figures, _numbers('all_figures', len(Figures._fields) * ROWS, *_lent(sheet)))


def listing(sheet):
    """The listing, a str; of form 4 with the least total with stores counted, modtotal, after each mean. The sheet's refusals.

    >>> listing(SMALL).split()[:6]
    ['refs=4', 'segs=2', 'rows=2', 'h=1', 'd=2', 'misses=3']
    """
    return _bytes('listing', LISTING_BYTES, *_lent(sheet)).decode('ascii')


def page(sheet):
    """The page for the binder, a str of 60 lines of 72 characters, or two pages where there are more than 58 rows. The sheet's refusals.

    >>> page(SMALL).split('\\n')[0].rstrip()
    'kind=space a=1'
    """
    return _bytes('page', PAGE_BYTES, *_lent(sheet)).decode('ascii')


def optimal_schedule(sheet, row):
    """The optimal schedule of a row of a sheet of forms 1 to 3: 32 bytes a step, where segment i is bit i % 8 of byte i // 8. The sheet's
    refusals, where form 4 is 4; 7.

    >>> list(optimal_schedule(SMALL, 0)[::32])
    [1, 3, 1, 2]
    """
    return _bytes('optimal_schedule', SCHEDULE_BYTES, *_lent(sheet), _whole(row))


def modified_schedule(sheet, row):
    """The schedule of the least total with stores counted, of a row of a sheet of form 4: as optimal_schedule has it. The sheet's
    refusals, where any other form is 4; 7.

    >>> fourth = b'form=4\\n' + SMALL[:-24].replace(b'refs=4', b'warm=0\\nsteps=3\\nrefs=2') + b'ref=1@1w\\nref=1@3w\\n'
    >>> list(modified_schedule(fourth, 1)[::32]), price(fourth, 1, modified_schedule(fourth, 1))
    ([2, 2, 2], Price(memory=9, load=8, total=17))
    """
    return _bytes('modified_schedule', SCHEDULE_BYTES, *_lent(sheet), _whole(row))


def price(sheet, row, schedule):
    """The Price of a schedule at a row, of form 4 with stores counted. The sheet's refusals; 7; 8 where it does not have 32 bytes a step;
    9 or 10 of the earliest faulty step.

    >>> price(SMALL, 0, optimal_schedule(SMALL, 0))
    Price(memory=9, load=10, total=28)
    """
    return _record(Price, 'price', *_lent(sheet), _whole(row), *_lent(schedule))


def margin(sheet, row, reference):
    """h * w - d * R of a reference, counted from 1: its reuse is kept where this is 0 or more. The sheet's refusals; 7; 14; 15 where it is
    a first touch of a segment that is not warm.

    >>> margin(SMALL, 0, 3), margin(SMALL, 0, 4)
    (0, -2)
    """
    return _number('margin', *_lent(sheet), _whole(row), _whole(reference), kind=c_int64)


def size(sheet, ceiling):
    """The lowest row with the least load among those with optmem within the ceiling, which may be any whole number. The sheet's
    refusals; 12.

    >>> size(SMALL, 11), size(SMALL, 12)
    (0, 1)
    """
    if operator.index(ceiling) < 0:    # below every optmem
        check(sheet)
        raise Refused(12)
    return _number('size', *_lent(sheet), _whole(ceiling))


def bill(sheet, row, memory_rate, load_rate, minimum):
    """The bill of a row in cents: a rate for each started thousand of its optmem and one for each of its load, raised to the minimum where
    that is more. The sheet's refusals; 7; 18 where a rate is not from 0 to 9,999 or the minimum not from 0 to 99,999.

    >>> bill(SMALL, 0, 7, 5, 10)
    12
    """
    return _number('bill', *_lent(sheet), _whole(row), _whole(memory_rate), _whole(load_rate), _whole(minimum))


def lru(sheet):
    """The misses of least-recently-used replacement with 1, 2, .., segs frames, a list; its attribute `looked` has the entries of the
    recency list that the one pass looked at. The sheet's refusals; 26 where a size is not 1, 27 where a warm segment is named.

    >>> lru(SMALL.replace(b'size=3', b'size=1')), lru(SMALL.replace(b'size=3', b'size=1')).looked
    ([4, 2], 5)
    """
    looked = c_uint64()
    return Lru(_numbers('lru', SEGS, *_lent(sheet), more=[byref(looked)]), looked.value)


def lru_plain(sheet):
    """The same list, by simulating one memory for each number of frames. The same refusals.

    >>> lru_plain(SMALL.replace(b'size=3', b'size=1'))
    [4, 2]
    """
    return _numbers('lru_plain', SEGS, *_lent(sheet))


def windows(sheet):
    """wsocc for every window T from 1 to steps, a list, of a sheet of kind time with a=0, every size 1 and no warm segment. The sheet's
    refusals; 28 where kind or a differs, 26 where a size is not 1, 27 where a warm segment is named.

    >>> windows(b'kind=time\\na=0\\nsegs=1\\nsize=1\\nrows=1\\nrow=1/1\\nrefs=2\\nref=0\\nref=0\\n')
    [2, 2]
    """
    return _numbers('windows', STEPS, *_lent(sheet))


def points(sheet):
    """Every operating point, a list of Point: each distinct ratio R/w among the reuses once, ascending. The sheet's refusals.

    >>> [(point.optmem, point.load) for point in points(SMALL)]
    [(8, 12), (9, 10), (12, 6)]
    """
    return _records(Point, _numbers('points', len(Point._fields) * POINTS, *_lent(sheet)))


# The recorder: its parts in C (segtrace_recorder of include/segtrace.h), its calls and the class over them.

_PARTS = (('head', c_uint64, 5), ('counts', c_uint64, 3), ('sizes', c_uint16, 256), ('holds', c_uint16, 256), ('h', c_uint16, 64),
          ('d', c_uint16, 64), ('last', c_uint16, 256), ('sums', c_uint64, 390))
_LENT_PARTS = tuple(POINTER(kind) for _, kind, _ in _PARTS)
_RECORDER_CALLS = {
    'recorder_start': _BYTES + _LENT_PARTS,
    'recorder_touch': _LENT_PARTS + (c_uint64,),
    'recorder_idle': (_NUMBER,),
    'recorder_touch_all': _LENT_PARTS + (POINTER(c_uint16), c_size_t),
    'recorder_figures': _LENT_PARTS + (c_uint64, _NUMBER),
}


class Recorder:
    """A recorder with the kind, a, sizes, rows and warm segments of a sheet of forms 1 to 3, and no steps. The sheet's refusals, where
    form 4 is 4.

    >>> recorder = Recorder(SMALL)
    >>> recorder.touch_all([0, 1, 0])
    >>> recorder.touch(1)
    >>> recorder.figures(0) == figures(SMALL, 0)
    True
    """

    def __init__(self, sheet):
        self._parts = [(kind * count)() for _, kind, count in _PARTS]
        _call('recorder_start', *_lent(sheet), *self._parts)

    def touch(self, segment):
        """Takes one reference: 4 for a segment not below segs, then 13 where 2,048 steps were taken."""
        _call('recorder_touch', *self._parts, _whole(segment))

    def touch_all(self, segments):
        """Takes all references, or none: 4 and 13 as for a touch, of the first that would be refused."""
        numbers = [_whole(segment, 2**16 - 1) for segment in segments]
        _call('recorder_touch_all', *self._parts, (c_uint16 * len(numbers))(*numbers), len(numbers))

    def idle(self):
        """Takes one step without a touch: 13 where 2,048 steps were taken."""
        _call('recorder_idle', self._parts[1])

    def figures(self, row):
        """The Figures of a row at this moment, those of the sheet that ends here: 7. The recorder can then go on."""
        return _record(Figures, 'recorder_figures', *self._parts, _whole(row))


# The program.

USAGE = """\
usage: python3 -m segtrace [FILE]

Prints the listing of a sheet, or refused= and the number of the refusal; FILE is standard input where it is left out.
Status: 0 a listing, 1 a refused sheet, 2 wrong usage, or input, output or the library failed, which standard error then says.
example: PYTHONPATH=python python3 -m segtrace examples/listing.sheet
"""


def _listing_of(name):
    """What is printed, and the status. One byte more than a sheet may have is read, so that a longer file is refused and not cut off."""
    with open(name if name is not None else 0, 'rb', closefd=name is not None) as source:
        sheet = source.read(SHEET_BYTES + 1)
    try:
        return listing(sheet), 0
    except Refused as refusal:
        return f'refused={refusal.number}\n', 1


def main(words):
    """Prints the listing of the file that is named, or of standard input; gives the status."""
    asked = words in (['-h'], ['--help'])
    if len(words) > 1 or words and words[0].startswith('-') and not asked:
        sys.stderr.write(USAGE)
        return 2
    try:
        text, status = (USAGE, 0) if asked else _listing_of(words[0] if words else None)
        with open(1, 'wb', closefd=False) as out:
            out.write(text.encode('ascii'))
        return status
    except OSError as fault:
        sys.stderr.write(f'segtrace: {fault}\n')
        return 2


if __name__ == '__main__':
    sys.exit(main(sys.argv[1:]))
