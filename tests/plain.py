"""The calls of python/segtrace.py once more, in plain Python and from documents 01 and 02 alone, for tests/python: the same names,
arguments, results (records are tuples) and refusals. Short rather than fast."""
import functools
import re
from collections import namedtuple
from fractions import Fraction

Sheet = namedtuple('Sheet', 'form kind a sizes rows warm steps refs')      # refs: (segment, step, modifies)
LENGTHS = {1: 20012, 2: 29163, 3: 31366, 4: 33414}
NAMES = 'h d misses volume load optmem opttotal optocc wsmem wsocc mean'.split()


class Refused(Exception):
    def __init__(self, number):
        super().__init__(number)
        self.number = number


def refuse(number, when):
    if when:
        raise Refused(number)


# The sheet: "Lines in order"; 2 to 5 apply within one line in order, then 16 or 19.

class Lines:
    def __init__(self, text):
        self.text, self.at = text, 0

    def value(self, key):
        end = self.text.find(b'\n', self.at)
        line = self.text[self.at:end]
        refuse(2, end < 0 or not line.startswith(key + b'='))
        self.at = end + 1
        return line[len(key) + 1:]

    def number(self, key, low, high):
        value = number(self.value(key))
        refuse(4, not low <= value <= high)
        return value


def number(text):
    refuse(3, not re.fullmatch(rb'0|[1-9][0-9]*', text))
    return int(text)


def two(text, between):
    parts = text.split(between)
    refuse(3, len(parts) != 2)
    return number(parts[0]), number(parts[1])


def read_rows(lines):
    rows = []
    for _ in range(lines.number(b'rows', 1, 64)):
        h, d = two(lines.value(b'row'), b'/')
        refuse(4, not (h <= 65535 and 1 <= d <= 65535))
        refuse(5, rows and h * rows[-1][1] <= rows[-1][0] * d)
        rows.append((h, d))
    return rows


def read_warm(lines, segs):
    warm = []
    for _ in range(lines.number(b'warm', 0, segs)):
        warm.append(lines.number(b'hold', 0, segs - 1))
        refuse(19, len(warm) > 1 and warm[-1] <= warm[-2])
    return warm


def read_refs(lines, form, segs, steps):
    if form == 1:
        return [(lines.number(b'ref', 0, segs - 1), n + 1, False) for n in range(lines.number(b'refs', 0, 2048))]
    refs, before = [], 0
    for _ in range(lines.number(b'refs', 0, steps)):
        value = lines.value(b'ref')
        marked = form == 4 and value.endswith(b'w')
        segment, step = two(value[:-1] if marked else value, b'@')
        refuse(4, segment >= segs)
        refuse(16, not before < step <= steps)
        refs.append((segment, step, marked))
        before = step
    return refs


@functools.lru_cache(maxsize=8)
def read(text, forms=(1, 2, 3, 4)):
    """The sheet, of one of these forms."""
    first = re.match(rb'form=([234])\n', text)
    refuse(1, len(text) > LENGTHS[int(first[1]) if first else 1])
    lines, form = Lines(text), 1
    if text.startswith(b'form='):
        form = lines.number(b'form', 2, 4)
        refuse(4, form not in forms)
    kind = lines.value(b'kind')
    refuse(3, kind not in (b'time', b'space'))
    refuse(4, form not in forms)
    a = lines.number(b'a', 0, 255)
    sizes = [lines.number(b'size', 1, 4095) for _ in range(lines.number(b'segs', 1, 256))]
    rows = read_rows(lines)
    warm = read_warm(lines, len(sizes)) if form >= 3 else []
    steps = lines.number(b'steps', 0, 2048) if form >= 2 else None
    refs = read_refs(lines, form, len(sizes), steps)
    refuse(6, lines.at < len(text))
    return Sheet(form, kind.decode(), a, sizes, rows, warm, len(refs) if steps is None else steps, refs)


def write(s):
    lines = [f'form={s.form}'] * (s.form > 1) + [f'kind={s.kind}', f'a={s.a}', f'segs={len(s.sizes)}'] + [f'size={z}' for z in s.sizes]
    lines += [f'rows={len(s.rows)}'] + [f'row={h}/{d}' for h, d in s.rows]
    lines += ([f'warm={len(s.warm)}'] + [f'hold={i}' for i in s.warm]) * (s.form > 2) + [f'steps={s.steps}'] * (s.form > 1)
    lines += [f'refs={len(s.refs)}'] + [f'ref={i}' + (f'@{t}' + 'w' * w if s.form > 1 else '') for i, t, w in s.refs]
    return ('\n'.join(lines) + '\n').encode()


# Costs.

def cost(s, segment):
    """Of one step in memory."""
    return 1 if s.kind == 'time' else s.sizes[segment]


def swap(s, segment):
    return 1 + s.a * s.sizes[segment]


def intervals(s):
    """The last touch before each reference (None for a first touch, 0 for that of a warm segment), and the end intervals."""
    last, before = {i: 0 for i in s.warm}, []
    for segment, step, _ in s.refs:
        before.append(last.get(segment))
        last[segment] = step
    return before, [(segment, s.steps + 1 - step) for segment, step in last.items()]


def row_of(s, row):
    refuse(7, not 0 <= row < len(s.rows))
    return s.rows[row]


def kept(s, h, d):
    """Whether each reference is a kept reuse."""
    return [b is not None and d * (t - b - 1) * cost(s, i) <= h * swap(s, i) for b, (i, t, _) in zip(intervals(s)[0], s.refs)]


def figures_of(s, h, d):
    before, ends = intervals(s)
    keep = kept(s, h, d)
    missed = [i for (i, _, _), k in zip(s.refs, keep) if not k]
    held = [(i, t - b - 1) for b, (i, t, _), k in zip(before, s.refs, keep) if k]
    spans = [(i, t - b) for b, (i, t, _) in zip(before, s.refs) if b is not None] + ends
    volume = sum(s.sizes[i] for i in missed)
    load = len(missed) + s.a * volume
    optmem = sum(cost(s, i) for i, _, _ in s.refs) + sum(idle * cost(s, i) for i, idle in held)
    sizes = sum(s.sizes[i] for i, _, _ in s.refs)
    smaller = [(i, min(d * (u - 1) * cost(s, i), h * swap(s, i))) for i, u in spans]
    wsmem = d * sum(cost(s, i) for i, _, _ in s.refs) + sum(x for _, x in smaller)
    wsocc = wsmem if s.kind == 'space' else d * sizes + sum(s.sizes[i] * x for i, x in smaller)
    optocc = sizes + sum(idle * s.sizes[i] for i, idle in held)
    mean = 1000 * wsocc // (d * s.steps) if s.steps else 0
    return h, d, len(missed), volume, load, optmem, d * optmem + h * load, optocc, wsmem, wsocc, mean


# The calls.

def check(sheet):
    read(sheet)


def rewrite(sheet):
    return write(read(sheet))


def to_form_2(sheet):
    return write(read(sheet, (1,))._replace(form=2))


def to_form_1(sheet):
    s = read(sheet, (2,))
    refuse(17, len(s.refs) < s.steps)
    return write(s._replace(form=1))


def join(first, second):
    x, y = read(first, (2, 3)), read(second, (2, 3))
    refuse(20, (x.kind, x.a, x.rows) != (y.kind, y.a, y.rows))
    refuse(21, {t for _, t, _ in x.refs} & {t for _, t, _ in y.refs})
    refuse(22, len(x.sizes) + len(y.sizes) > 256)
    n = len(x.sizes)
    refs = sorted(x.refs + [(i + n, t, False) for i, t, _ in y.refs], key=lambda ref: ref[1])
    return write(Sheet(3, x.kind, x.a, x.sizes + y.sizes, x.rows, x.warm + [i + n for i in y.warm], max(x.steps, y.steps), refs))


def import_din(trace, k, sheet):
    s = read(sheet)
    refuse(23, not 8 <= k <= 24)
    pages, refs = {}, []
    for line in re.findall(rb'[^\n]*\n|[^\n]+$', trace):
        refuse(24, not re.fullmatch(rb'[012] [0-9a-fA-F]{1,8}\n', line))
        page = int(line[2:], 16) >> k
        refuse(25, len(refs) == 2048 or page not in pages and len(pages) == 256)
        refs.append((pages.setdefault(page, len(pages)), 0, False))
    return write(Sheet(1, 'time', 0, [1] * max(1, len(pages)), s.rows, [], 0, refs))


def figures(sheet, row):
    s = read(sheet)
    return figures_of(s, *row_of(s, row))


def all_figures(sheet):
    s = read(sheet)
    return [figures_of(s, h, d) for h, d in s.rows]


def listing(sheet):
    s = read(sheet)
    lines = [f'refs={len(s.refs)}'] + [f'steps={s.steps}'] * (s.form > 1) + [f'segs={len(s.sizes)}', f'rows={len(s.rows)}']
    for h, d in s.rows:
        lines += [f'{name}={x}' for name, x in zip(NAMES, figures_of(s, h, d))]
        if s.form == 4:
            lines.append(f'modtotal={sum(best[0] for best in stays(s, h, d).values())}')
    return '\n'.join(lines) + '\n'


def page(sheet):
    s, text = read(sheet), ''
    for first in range(0, len(s.rows), 58):
        rows = [figures_of(s, h, d) for h, d in s.rows[first:first + 58]]
        table = [('h', 'd', 'misses', 'volume', 'load', 'mean')] + [row[:5] + row[10:] for row in rows]
        lines = [f'kind={s.kind} a={s.a}'] + ['  '.join(f'{x:>{w}}' for x, w in zip(line, (7, 7, 8, 12, 12, 12))) for line in table]
        text += ''.join(f'{line:72}\n' for line in lines + [''] * (60 - len(lines)))
    return text


def packed(held):
    """The bytes of the sets of segments held, one for each step."""
    return b''.join(sum(1 << i for i in step).to_bytes(32, 'little') for step in held)


def optimal_schedule(sheet, row):
    s = read(sheet, (1, 2, 3))
    h, d = row_of(s, row)
    held = [set() for _ in range(s.steps)]
    for (i, t, _), b, keep in zip(s.refs, intervals(s)[0], kept(s, h, d)):
        for step in range(b + 1 if keep else t, t + 1):
            held[step - 1].add(i)
    return packed(held)


def stays(s, h, d):
    """Of each segment touched the least total over all ways to hold it through some of its intervals, then the least load, then what holds
    earliest: total, load and the steps that hold it. Every way is tried."""
    best = {}
    for segment in {i for i, _, _ in s.refs}:
        touches = [(t, w) for i, t, w in s.refs if i == segment]
        starts = [0] * (segment in s.warm) + [t for t, _ in touches]
        spans = [(b, t) for b, t in zip(starts, starts[1:])]
        ways = []
        for choice in range(1 << len(spans)):
            through = [choice >> n & 1 or t == b + 1 for n, (b, t) in enumerate(spans)]
            steps = {t for t, _ in touches} | {x for (b, t), k in zip(spans, through) if k for x in range(b + 1, t)}
            cuts = [t for (b, t), k in zip(spans, through) if not k] + [touches[0][0]] * (segment not in s.warm)
            parts = [sum(c <= t for c in cuts) for t, _ in touches]
            stores = len({part for part, (_, w) in zip(parts, touches) if w})
            load = (len(cuts) + stores) * swap(s, segment)
            ways.append((d * len(steps) * cost(s, segment) + h * load, load, [-(t in steps) for t in range(1, s.steps + 1)], steps))
        best[segment] = min(ways, key=lambda way: way[:3])
    return {segment: (total, load, steps) for segment, (total, load, _, steps) in best.items()}


def modified_schedule(sheet, row):
    s = read(sheet, (4,))
    best = stays(s, *row_of(s, row))
    return packed([{i for i in best if t in best[i][2]} for t in range(1, s.steps + 1)])


def price(sheet, row, schedule):
    s = read(sheet)
    h, d = row_of(s, row)
    refuse(8, len(schedule) != 32 * s.steps)
    touched = {t: (i, w) for i, t, w in s.refs}
    before, stored, memory, load = set(s.warm), set(), 0, 0
    for t in range(1, s.steps + 1):
        bits = int.from_bytes(schedule[32 * t - 32:32 * t], 'little')
        held = {i for i in range(256) if bits >> i & 1}
        segment, modifies = touched.get(t, (None, False))
        refuse(9, segment is not None and segment not in held)
        refuse(10, held - before - {segment})
        memory += sum(cost(s, i) for i in held)
        stored &= held & before          # a stay goes on, or another starts
        if segment is not None and segment not in before:
            load += swap(s, segment)
        if modifies and s.form == 4 and segment not in stored:
            load += swap(s, segment)
            stored.add(segment)
        before = held
    return memory, load, d * memory + h * load


def margin(sheet, row, reference):
    s = read(sheet)
    h, d = row_of(s, row)
    refuse(14, not 1 <= reference <= len(s.refs))
    (segment, step, _), before = s.refs[reference - 1], intervals(s)[0][reference - 1]
    refuse(15, before is None)
    return h * swap(s, segment) - d * (step - before - 1) * cost(s, segment)


def size(sheet, ceiling):
    rows = [(f[4], n) for n, f in enumerate(all_figures(sheet)) if f[5] <= ceiling]
    refuse(12, not rows)
    return min(rows)[1]


def bill(sheet, row, memory_rate, load_rate, minimum):
    f = figures(sheet, row)
    refuse(18, not (0 <= memory_rate <= 9999 and 0 <= load_rate <= 9999 and 0 <= minimum <= 99999))
    return max(minimum, memory_rate * -(-f[5] // 1000) + load_rate * -(-f[4] // 1000))


def unit_sizes(s):
    refuse(26, set(s.sizes) != {1})
    refuse(27, s.warm)


def recency(refs):
    """For each touch the entries of the recency list that are looked at, and whether the segment is there."""
    recent = []
    for segment, _, _ in refs:
        there = segment in recent
        yield recent.index(segment) + 1 if there else len(recent), there
        recent = [segment] + [i for i in recent if i != segment]


def lru(sheet):
    s = read(sheet)
    unit_sizes(s)
    looks = list(recency(s.refs))
    return [sum(not there or depth > k for depth, there in looks) for k in range(1, len(s.sizes) + 1)], sum(depth for depth, _ in looks)


def lru_plain(sheet):
    s, misses = read(sheet), []
    unit_sizes(s)
    for k in range(1, len(s.sizes) + 1):
        memory, count = [], 0
        for segment, _, _ in s.refs:
            count += segment not in memory
            memory = ([segment] + [i for i in memory if i != segment])[:k]
        misses.append(count)
    return misses


def windows(sheet):
    s = read(sheet)
    refuse(28, s.kind != 'time' or s.a)
    unit_sizes(s)
    return [figures_of(s, t - 1, 1)[9] for t in range(1, s.steps + 1)]


def points(sheet):
    s, first = read(sheet), {}
    for (i, t, _), b in zip(s.refs, intervals(s)[0]):
        if b is not None:
            r, w = (t - b - 1) * cost(s, i), swap(s, i)
            first.setdefault(Fraction(r, w), (r, w))
    found = [first[ratio] for ratio in sorted(first)]
    if Fraction(0) not in first:
        found.insert(0, (0, 1))
    return [(r, w, figures_of(s, r, w)[5], figures_of(s, r, w)[4]) for r, w in found]


class Recorder:
    def __init__(self, sheet):
        self.sheet = read(sheet, (1, 2, 3))._replace(form=3, steps=0, refs=[])

    def touch(self, segment):
        refuse(4, not 0 <= segment < len(self.sheet.sizes))
        refuse(13, self.sheet.steps == 2048)
        self.sheet = self.sheet._replace(steps=self.sheet.steps + 1, refs=self.sheet.refs + [(segment, self.sheet.steps + 1, False)])

    def touch_all(self, segments):
        before = self.sheet
        try:
            for segment in segments:
                self.touch(segment)
        except Refused:
            self.sheet = before
            raise

    def idle(self):
        refuse(13, self.sheet.steps == 2048)
        self.sheet = self.sheet._replace(steps=self.sheet.steps + 1)

    def figures(self, row):
        return figures_of(self.sheet, *row_of(self.sheet, row))
