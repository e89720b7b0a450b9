#!/usr/bin/env python3
"""Lists places of the sources by their form, for each point of docs/DESIGN-PASS.md: tools/forms.py [POINT] [FOLDER].

Each line is a place, as FILE:LINE and what stands there; the last line of a point is its count. It reads the text alone, so
a place that it lists may be right as it is: the page says of each what became of it."""
import re
import sys
from collections import defaultdict
from pathlib import Path

FUNCTION = re.compile(r'^( *)(?:pub(?:\([a-z]+\))? )?fn (\w+)')


def sources(root):
    for path in sorted(Path(root).glob('crates/*/src/*.rt')):
        yield path, path.read_text().split('\n')


def functions(lines):
    """Each function as its first line, name, head (up to the brace that opens its body) and body."""
    at = 0
    while at < len(lines):
        found = FUNCTION.match(lines[at])
        if not found:
            at += 1
            continue
        indent, name = found.groups()
        start = at
        head, body, inside = [], [], False
        while at < len(lines):
            line = lines[at]
            if inside:
                if line == indent + '}':
                    break
                body.append(line)
            elif line == indent + '{' or (line.rstrip().endswith('{') and not re.match(r' *(ensures|requires)', line)):
                head.append(line.rstrip()[:-1])
                inside = True
            elif line.rstrip().endswith('{}') or line.rstrip().endswith(';'):
                head.append(line)
                break
            else:
                head.append(line)
            at += 1
        yield start + 1, name, '\n'.join(head), body
        at += 1


def point1(root):
    for path, lines in sources(root):
        for i, line in enumerate(lines):
            if re.match(r' *(pub(\([a-z]+\))? )?enum \w+', line):
                cases = []
                for after in lines[i + 1:]:
                    if after.strip() == '}':
                        break
                    found = re.match(r' +(\w+)(\(.*\))?( = \d+)?,$', after)
                    if found:
                        cases.append(found.group(2) is not None)
                if len(cases) == 2 and any(cases):
                    yield path, i + 1, line.strip()
            if re.match(r' *(pub(\([a-z]+\))? )?const (NO_|NONE)\w+: (usize|u8|u32)', line):
                yield path, i + 1, line.strip()
            if re.match(r' +pub(\([a-z]+\))? (number|code|refusal): u8,', line):
                yield path, i + 1, line.strip()
            if re.match(r' +[\w ]*\d+ => "', line):
                yield path, i + 1, line.strip()
        for start, name, head, body in functions(lines):
            if '-> bool' in head and re.search(r': &mut \w', head):
                yield path, start, f'fn {name} answers a flag beside a changed parameter'
            if re.search(r'-> u8\b', head) and name == 'number':
                yield path, start, f'fn {name} of a fault'


def skeleton(text):
    names = {}
    out = []
    for token in re.findall(r"[A-Za-z_]\w*|\d[\d_]*|'\w+|\S", text):
        if token in ('fn', 'let', 'mut', 'if', 'else', 'for', 'in', 'match', 'return', 'while', 'loop', 'Some', 'None', 'Ok', 'Err', 'self', 'ref', 'usize', 'u8', 'u32', 'bool'):
            out.append(token)
        elif re.match(r'\d', token):
            out.append('0')
        elif re.match(r'[A-Za-z_]', token):
            out.append('n%d' % names.setdefault(token, len(names)))
        else:
            out.append(token)
    return ' '.join(out), len(out)


def point2(root):
    groups = defaultdict(list)
    for path, lines in sources(root):
        tests = next((i for i, line in enumerate(lines) if line.startswith('mod tests')), len(lines))
        for start, name, head, body in functions(lines[:tests]):
            text, size = skeleton('\n'.join(body))
            if size >= 12:
                groups[(path.parts[-3], text)].append((path, start, name))
    for found in groups.values():
        if len(found) > 1:
            for path, start, name in found:
                yield path, start, f'fn {name} has the shape of ' + ', '.join(n for p, s, n in found if (p, s) != (path, start))


def inside_of(lines, i):
    """The lines that stand inside the block that line i opens."""
    indent = len(lines[i]) - len(lines[i].lstrip())
    inside = []
    for after in lines[i + 1:]:
        if after.strip() and len(after) - len(after.lstrip()) <= indent:
            break
        inside.append(after)
    return inside


def point3(root):
    for path, lines in sources(root):
        for i, line in enumerate(lines):
            found = re.match(r' +for (\w+) in (.*\.\..*) \{$', line)
            if found and found.group(1) != '_':
                yield path, i + 1, line.strip()
            if re.match(r' +(while|loop)\b', line):
                if any(re.search(r'\w+ \+= (1|more);', after) for after in inside_of(lines, i)):
                    yield path, i + 1, line.strip()
            if re.match(r' +for \w+ in ', line) and '..' not in line:
                if any(re.search(r'\w+ \+= 1;', after) for after in inside_of(lines, i)):
                    yield path, i + 1, line.strip()


def point4(root):
    for path, lines in sources(root):
        for i, line in enumerate(lines):
            if re.match(r'impl.* (PartialEq|Eq|Ord|PartialOrd|Clone|Copy|Default|Debug|Display|From|TryFrom)(<.*>)? for ', line):
                yield path, i + 1, line.strip()
            if re.match(r' *(pub(\([a-z]+\))? )?fn (same\w*|number|push_(un)?signed|\w+_name)\b', line):
                yield path, i + 1, line.strip()
            if re.match(r' *match .*', line) and i + 2 < len(lines):
                two = lines[i + 1].strip() + ' ' + lines[i + 2].strip()
                if re.match(r'(Some|Ok)\((\w+)\) => (Some|Ok)\(.*\), (None|Err\(.*\)) => (None|Err\(.*),?', two):
                    yield path, i + 1, line.strip()


def point5(root):
    clauses = defaultdict(list)
    together = defaultdict(list)
    for path, lines in sources(root):
        crate = path.parts[-3]
        for start, name, head, body in functions(lines):
            if path.name == 'laws.rt':
                continue
            for clause in re.findall(r'requires (?:\w+ )?\{(.*)\}', head):
                plain = re.sub(r'\b(self|rule|table|heads|row|taken|first|second|job|store|result|used)\.(now\.|old\.|new\.)*', '_.', clause)
                clauses[(crate, plain.strip())].append((path, start, name))
            for clause in re.findall(r'ensures (?:\w+ )?\{(.*)\}', head):
                found = re.match(r' (\S+\.new\.?\w*) ≡ (\S+\.old\.?\w*) $', clause)
                if found:
                    clauses[(crate, clause.strip())].append((path, start, name))
            types = re.findall(r'(\w+): (&?(?:mut )?[\w<>\[\]\'; ]+)', head.split('requires')[0].split('ensures')[0])
            plain = sorted({(n, t.strip()) for n, t in types if n not in ('rt', 'self')})
            for i in range(len(plain)):
                for j in range(i + 1, len(plain)):
                    for k in range(j + 1, len(plain)):
                        together[(crate, plain[i], plain[j], plain[k])].append((path, start, name))
    for (crate, clause), found in sorted(clauses.items(), key=lambda x: str(x[0])):
        if len(found) >= 3:
            for path, start, name in found:
                yield path, start, f'fn {name}: {clause[:90]}'
    seen = set()
    for (crate, *names), found in together.items():
        if len(found) >= 3:
            for path, start, name in found:
                if (path, start) not in seen:
                    seen.add((path, start))
                    yield path, start, f'fn {name}: ' + ', '.join(n for n, t in names) + ' travel together'


def point6(root):
    for path, lines in sources(root):
        text = '\n'.join(lines)
        for found in re.finditer(r'struct (\w+)[^{;(]*\{(.*?)\n\}', text, re.S):
            fields = re.findall(r'(\w+): ([^,\n]+)', found.group(2))
            arrays = [n for n, t in fields if t.startswith('[')]
            counts = [n for n, t in fields if t == 'usize']
            links = [n for n, t in fields if t == 'usize' and (n.startswith('by_') or n in ('next', 'free'))]
            line = text[:found.start()].count('\n') + 1
            if arrays and counts:
                for n in arrays:
                    yield path, line, f'struct {found.group(1)}: {n} with a count beside it'
            elif len(links) > 1:
                yield path, line, f'struct {found.group(1)}: rows named by index'


def point7(root):
    for path, lines in sources(root):
        for start, name, head, body in functions(lines):
            text = '\n'.join(body)
            found = re.match(r' +match (\w+) \{', text)
            if found and re.search(found.group(1) + r': (Way|Kind|Sort|Mode)\b', head):
                yield path, start, f'fn {name} goes by a switch'
            if re.search(r'\bfn\(', head):
                yield path, start, f'fn {name} takes a function pointer'


POINTS = [point1, point2, point3, point4, point5, point6, point7]


def main():
    wanted = [int(x) for x in sys.argv[1:] if x.isdigit()] or range(1, 8)
    root = next((x for x in sys.argv[1:] if not x.isdigit()), Path(__file__).resolve().parent.parent)
    for number in wanted:
        places = list(POINTS[number - 1](root))
        for path, line, what in places:
            print(f'{number} {path.relative_to(root)}:{line} {what}')
        print(f'{number} places: {len(places)}')


main()
