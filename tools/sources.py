"""What the scripts of tools/ read from the sources: the crates by layer, the definitions of the specs files and what each names, and the
contracts of the public calls. Run from the top folder."""
import glob
import os
import re

DEFINES = re.compile(r'^(?:abbrev pub|unfoldable pub|abbrev|unfoldable|pub record|pub data|record|data) ([^\s(:]+)')
USES = re.compile(r'use ([^\s{;]+?)\.\{([^}]*)\}')
WORD = re.compile(r"[A-Za-z][\w'-]*")
CALL = re.compile(r'^(?:    )?pub (?:extern "C" )?fn (\w+)', re.M)
# The crates with public calls; of `exports` those whose name begins with segtrace_, of `recorder` those of lib.rt.
DOORS = ('analyser', 'recorder', 'reader', 'row_records', 'exports')


def read(path):
    with open(path, encoding='utf-8') as f:
        return f.read()


def layers():
    """The layers of crates.txt in order: heading, and of each crate its name and the names that it uses. Between the name and the colon may
    stand what the crate is, as `exports staticlib:`."""
    found = []
    for line in read('crates.txt').split('\n')[1:]:
        if line.startswith('# '):
            found.append((line[2:], []))
        elif ':' in line:
            name, uses = line.split(':')
            found[-1][1].append((name.split()[0], uses.split()))
    return found


def specs_path(module, crate):
    """The file of a module that a `use` line names, seen from a crate; None where it is none of ours, or made from the code."""
    m = re.match(r'Rattle\.(\w+)\.specs\.(?!declared)([\w.]+)$', module)
    if not m:
        return None
    path = f'crates/{m[1]}/specs/{m[2].replace(".", "/")}.antt'
    return path if os.path.exists(path) else None


def imported(text, crate):
    """The names that the `use` lines of a file bring in, each with the file that it comes from and its name there."""
    names = {}
    for module, listed in USES.findall(text):
        path = specs_path(module, crate)
        for item in listed.split(','):
            there, _, here = item.strip().partition(' as ')
            if path:
                names[here or there] = (path, there)
    return names


class Definition:
    """A definition of a specs file: its first line, that of the comment above it, and its last; the definitions that it names."""

    def __init__(self, path, name, first, last, text):
        self.path, self.name, self.first, self.last, self.text, self.names = path, name, first, last, text, set()

    @property
    def crate(self):
        return self.path.split('/')[1]

    @property
    def inner(self):
        return '/specs/inner/' in self.path


def in_file(path):
    """The definitions of a file in order."""
    lines, found = read(path).split('\n'), []
    for n, line in enumerate(lines):
        m = DEFINES.match(line)
        if not m:
            continue
        first, last = n, n
        while first > 0 and lines[first - 1].startswith('--') and not lines[first - 1].startswith('-- ----'):
            first -= 1
        while last + 1 < len(lines) and lines[last + 1].strip() and not re.match(DEFINES.pattern + '|--', lines[last + 1]):
            last += 1
        found.append(Definition(path, m[1], first + 1, last + 1, '\n'.join(lines[n:last + 1])))
    return found


def constructors(definition):
    """The names that a data type or a record brings with it: its cases, and its fields."""
    return re.findall(r"^  (?:pub )?([\w'-]+) :", definition.text, re.M)


def definitions():
    """Every definition of the specs files, by file and name, with the definitions that it names."""
    table = {}
    for path in sorted(glob.glob('crates/*/specs/**/*.antt', recursive=True)):
        for d in in_file(path):
            table[path, d.name] = d
    cases = {(d.path, c): d for d in table.values() if d.text.startswith('pub data') for c in constructors(d)}
    for path in {p for p, _ in table}:
        names = imported(read(path), path.split('/')[1])
        for d in [d for d in table.values() if d.path == path]:
            for word in set(WORD.findall(re.sub(r'--.*', '', d.text))):
                place = names.get(word, (path, word))
                other = table.get(place) or cases.get(place)
                if other is not None and other is not d:
                    d.names.add(other)
    return table, cases


def contracts():
    """Of each public call its name, its file and its contract, the text between its head and its body."""
    found = []
    for door in DOORS:
        for path in sorted(glob.glob(f'crates/{door}/src/**/*.rt', recursive=True)):
            if door == 'recorder' and not path.endswith('/lib.rt'):
                continue
            text = read(path)
            for m in CALL.finditer(text):
                if door == 'exports' and not m[1].startswith('segtrace_'):
                    continue
                body = re.compile(r'^ *\{$', re.M).search(text, m.end())
                found.append((m[1], path, text[m.end():body.start() if body else len(text)]))
    return found
