#!/usr/bin/env python3
"""Finds the places in crates/*/src that an older way of writing may have left, one point at a time.

    tools/places.py          the number of places of each point, crate by crate
    tools/places.py POINT    the places of one point, 1 to 8

It reads text alone. A line that it prints is a place to look at: docs/DESIGN-PASS.md says what became of each.
"""
import re
import subprocess
import sys
from collections import defaultdict

KEYWORDS = set('as bool break const else enum f32 f64 false fn for i32 i64 if impl in let loop match mut pub ref return self Self '
               'static struct true type u128 u16 u32 u64 u8 unsafe use usize where while None Some Ok Err'.split())
TOKEN = re.compile(r'"(?:\\.|[^"\\])*"|[A-Za-z_]\w*|\d[\w.]*|[^\s\w]')


def sources():
    names = subprocess.run(['git', 'ls-files', 'crates/*/src/*.rt'], capture_output=True, text=True).stdout.split()
    return [(name, open(name, encoding='utf-8').read()) for name in names]


def crate_of(name):
    return name.split('/')[1]


def code_of(text):
    """The text without its comments, line for line."""
    return re.sub(r'//[^\n]*', '', text)


def closing(text, start):
    """Where the bracket that opens at `start` closes."""
    pairs = {'(': ')', '{': '}', '[': ']'}
    stack = []
    at = start
    while at < len(text):
        c = text[at]
        if c == '"':
            at = re.compile(r'"(?:\\.|[^"\\])*"').match(text, at).end()
            continue
        if c in pairs:
            stack.append(pairs[c])
        elif stack and c == stack[-1]:
            stack.pop()
            if not stack:
                return at
        at += 1
    return len(text)


class Function:
    def __init__(self, file, line, name, parameters, clauses, body):
        self.file, self.line, self.name = file, line, name
        self.parameters, self.clauses, self.body = parameters, clauses, body

    def place(self):
        return f'{self.file}:{self.line}: {self.name}'


def functions(file, text):
    text = code_of(text)
    found = []
    for start in re.finditer(r'\bfn (\w+)', text):
        at = start.end()
        while at < len(text) and text[at] != '(':
            at += 1
        end = closing(text, at)
        parameters = split(text[at + 1:end], ',')
        at = end + 1
        clauses = []
        while at < len(text) and text[at] not in ';':
            if text[at] == '{':
                before = re.search(r'\b(requires|ensures)\s*\w*\s*$', text[:at])
                after = closing(text, at)
                if not before:
                    break
                clauses.append(text[at + 1:after])
                at = after
            at += 1
        body = text[at:closing(text, at) + 1] if at < len(text) and text[at] == '{' else ''
        line = text.count('\n', 0, start.start()) + 1
        found.append(Function(file, line, start.group(1), parameters, clauses, body))
    return found


def split(text, mark):
    """The parts of a text between the marks that stand in no bracket."""
    parts, depth, last = [], 0, 0
    for at, c in enumerate(text):
        if c in '({[<':
            depth += 1
        elif c in ')}]' or (c == '>' and text[at - 1] != '-'):
            depth -= 1
        elif c == mark and depth == 0:
            parts.append(text[last:at])
            last = at + 1
    parts.append(text[last:])
    return [' '.join(part.split()) for part in parts if part.strip()]


def by_line(pattern):
    search = re.compile(pattern)
    return [f'{file}:{n}: {line.strip()}' for file, text in sources() for n, line in enumerate(code_of(text).split('\n'), 1)
            if search.search(line)]


def numbers_for_kinds():
    """1: a flag with a value beside it, and numbers for kinds, refusals or "none"."""
    kinds = r'\blost: bool\b|\(u8, u8\)|\b(valve|number|degree|kind|cause|stage): u8\b|, u8>|-> u8 *$|-> \(u8|^\s*0,$'
    zeros = by_line(r'^\s*0,$')
    rest = [place for place in by_line(kinds) if place not in zeros]
    # a table in which 0 says "none" is one place
    return rest + sorted({place.rsplit(':', 2)[0] + ': 0 for none in a table' for place in zeros if '/fraction/' in place})


def shape(body):
    return ' '.join(t if t in KEYWORDS or not (t[0].isalnum() or t[0] in '_"') else '_' for t in TOKEN.findall(body))


def twins():
    """2: functions whose bodies are the same but for names and constants."""
    groups = defaultdict(list)
    for file, text in sources():
        for f in functions(file, text):
            tokens = TOKEN.findall(f.body)
            if len(tokens) >= 18:
                groups[shape(f.body)].append(f)
    return [f'{f.place()}, like {group[0].name}' for group in groups.values() if len(group) > 1 for f in group[1:]]


def index_loops():
    """3: loops that count by hand."""
    return by_line(r'\bfor \w+ in \d+\.\.|\bwhile\b|\bloop \{')


def enclosing(file, line):
    """The function in which a line stands."""
    names = [f for f in functions(file, open(file, encoding='utf-8').read()) if f.line <= line]
    return max(names, key=lambda f: f.line).name if names else ''


def by_hand():
    """4: equality, copying, conversion and printing written by hand."""
    lines = by_line(r'\bNone => (None|0)\b|\bSome\((\w+)\) => Some\(\2\)|\bOk\((\w+)\) => Ok\(\3\)|\b(Ok|Err)\(_\) => None'
                    r'|=> "|/ 256\b|% 256\b|\* 256\b|/ 16777216|\.(\w+) == \w+\.\5\b|\bis_same\(self\.'
                    r'|^\s*match u?\w+::from_str_radix')
    found = []
    for place in lines:
        file, line, text = place.split(':', 2)
        where = f'{file}: {enclosing(file, int(line))}'
        # one place for each function, however many lines it takes there
        if not any(known.startswith(where + ':') for known in found):
            found.append(f'{where}:{text}')
    for file, text in sources():
        code = code_of(text)
        for m in re.finditer(r'\b[A-Z]\w* \{', code):
            end = closing(code, m.end() - 1)
            fields = [part.split(':', 1) for part in split(code[m.end():end], ',') if re.match(r'\w+ ?: ?[^:]', part)]
            if len(fields) < 2 or end - m.start() > 400:
                continue
            turned = {re.sub(rf'\.{re.escape(name.strip())}\b', '.F', value.strip()) for name, value in fields}
            if len(turned) == 1 and '.F' in next(iter(turned)):
                line = code.count('\n', 0, m.start()) + 1
                found.append(f'{file}:{line}: {" ".join(code[m.start():end + 1].split())}')
    return found


def together():
    """5: facts in the contracts of three or more functions, and parameters that travel together."""
    facts, pairs = defaultdict(set), defaultdict(set)
    for file, text in sources():
        for f in functions(file, text):
            for clause in f.clauses:
                parts = split(clause.replace('→', '\0').replace('×', '\0'), '\0')
                for part in parts[:-1] if '→' in clause else parts:
                    fact = re.sub(r'\.(old|now|new)\b', '', part.strip('() '))
                    if len(fact.split()) > 1 and '≡' not in fact.split()[0] and 'result' not in fact:
                        facts[crate_of(file), fact].add(f.place())
            names = [p for p in f.parameters if ':' in p and 'self' not in p.split(':')[0]]
            for i, first in enumerate(names):
                for second in names[i + 1:]:
                    pairs[crate_of(file), first, second].add(f.place())
    found = [f'crates/{crate}: fact in {len(where)} contracts: {fact}' for (crate, fact), where in sorted(facts.items()) if len(where) >= 3]
    return found + [f'crates/{crate}: parameters of {len(where)} functions: {a}, {b}'
                    for (crate, a, b), where in sorted(pairs.items()) if len(where) >= 3]


def buffers():
    """6: arrays beside one another or beside a length, and lists searched by hand."""
    return by_line(r'\bconst \w+: \[|\bstatic \w+: \[|= \[\w+(\([^)]*\)|u8|\s*\{)?; \d+\]|\[\w+; \d+\];|\bfirst: f32,|\bfor \w+ in ALL\b'
                   r'|\[\w+ as usize\]|\[\w+\.\w+ as usize\]')


def switches():
    """7: a value that says which function to run."""
    found = []
    for file, text in sources():
        for f in functions(file, text):
            arms = re.findall(r'=> (?:\w+::)*\w+\(', f.body)
            if len([a for a in arms if not re.search(r'(Some|Ok|Err|write|println|writeln)\($', a)]) >= 2:
                found.append(f.place())
    return found


def proofs():
    """8: files of answers, and of lemmas of a crate's own."""
    names = subprocess.run(['git', 'ls-files', 'crates/*/proofs/*.antt', 'crates/*/proofs/**/*.antt'], capture_output=True, text=True)
    found = sorted(set(names.stdout.split()))
    return [f'{name}: {sum(1 for _ in open(name, encoding="utf-8"))} lines' for name in found if not name.endswith('Lib.antt')]


POINTS = [numbers_for_kinds, twins, index_loops, by_hand, together, buffers, switches, proofs]


def main():
    if len(sys.argv) > 1:
        places = POINTS[int(sys.argv[1]) - 1]()
        print('\n'.join(places))
        print(len(places))
        return
    for n, point in enumerate(POINTS, 1):
        places = point()
        crates = defaultdict(int)
        for place in places:
            crates[crate_of(place.split(':')[0])] += 1
        counts = ', '.join(f'{crate} {count}' for crate, count in sorted(crates.items()))
        print(f'{n}: {len(places)} ({counts})')


main()
