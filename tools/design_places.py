#!/usr/bin/env python3
"""Lists the places in src/ that an older form may hold: design_places.py [COMMIT]

Without a commit it reads the checkout. docs/DESIGN-PASS.md says what becomes of them. What it lists are candidates: a line of
the page decides each."""
import collections
import pathlib
import re
import subprocess
import sys

TOP = pathlib.Path(__file__).resolve().parent.parent


def sources(commit):
    if commit is None:
        for path in sorted(TOP.glob('crates/*/src/**/*.rt')):
            yield str(path.relative_to(TOP)), path.read_text()
        return
    names = subprocess.run(['git', 'ls-tree', '-r', '--name-only', commit, 'crates'], cwd=TOP, capture_output=True, text=True, check=True)
    for name in names.stdout.split():
        if re.fullmatch(r'crates/\w+/src/.*\.rt', name):
            text = subprocess.run(['git', 'show', f'{commit}:{name}'], cwd=TOP, capture_output=True, text=True, check=True)
            yield name, text.stdout


def plain(text):
    return '\n'.join(line for line in text.split('\n') if not line.lstrip().startswith(('//', 'ghost use')))


def block_after(text, start):
    """The text between the brace that opens at or behind start and the one that closes it."""
    at = text.index('{', start)
    depth = 0
    for i in range(at, len(text)):
        depth += {'{': 1, '}': -1}.get(text[i], 0)
        if depth == 0:
            return text[at + 1:i]
    return ''


def parts(body):
    """The parts of a list between commas at depth 0."""
    out, depth, last = [], 0, ''
    for sign in body:
        depth += {'(': 1, '{': 1, '[': 1, ')': -1, '}': -1, ']': -1}.get(sign, 0)
        if sign == ',' and depth == 0:
            out.append(last.strip())
            last = ''
        else:
            last += sign
    return [part for part in out + [last.strip()] if part]


def functions(text):
    """Each function's name, parameters, requires and body."""
    for found in re.finditer(r'^( *)(?:pub(?:\(crate\))? )?(?:extern "C" )?fn (\w+)(?:<[^(]*>)?\(', text, re.M):
        close = text.index(')', found.end())
        end = re.compile(r'\{$', re.M).search(text, close)
        head = text[close:end.start()] if end else ''
        names = [part.split(':')[0].strip() for part in parts(text[found.end():close]) if ':' in part]
        requires = [r for r in re.findall(r'requires(?: \w+)? \{ (.*) \}', head)]
        yield found[2], names, requires, block_after(text, end.start()) if end else ''


def point_1(name, text):
    crate = name.split('/')[1]
    for found in re.finditer(r'enum (\w+) ', text):
        variants = parts(block_after(text, found.end() - 1))
        carry = [v for v in variants if re.search(r'[({]', v)]
        if any(re.match(r'Refused\b', v) for v in variants):
            yield f'enum {found[1]}: shape of Result'
        elif len(variants) == 2 and len(carry) == 1:
            yield f'enum {found[1]}: shape of Option'
    for found in re.finditer(r'struct (\w+) \{', text):
        fields = parts(block_after(text, found.start()))
        if len(fields) == 2 and sum(f.endswith(': bool') for f in fields) == 1:
            yield f'struct {found[1]}: a flag beside a value'
    if crate in ('block', 'noise', 'line', 'tint'):
        for found in re.finditer(r'^pub const (\w+): u8 = \d+;', text, re.M):
            yield f'const {found[1]}: a number'


def point_1_sentinels(name, text):
    for found in re.finditer(r'^ *// (.*(?:if there is none|for any other|with any other|or 0 behind).*)\n(?:.*//.*\n)*.*fn (\w+)', text, re.M):
        yield f'fn {found[2]}: {found[1]}'


def point_3(name, text):
    for found in re.finditer(r'^ *while (.*) \{$', text, re.M):
        yield f'while {found[1]}'


def point_4(name, text):
    for found in re.finditer(r'\blet (\w+) = \w+\.\1;', text):
        yield f'{found[0]} (a field copied to a name of its own)'
    for found in re.finditer(r'(\w+\[[^\]]*\]|\w+) = \1 [&|^+*/-] ', text):
        yield f'{found[0]}.. (an assignment by an operator)'
    for fn, names, _, body in functions(text):
        body = body.strip()
        if re.fullmatch(r'\w+ as \w+', body):
            yield f'fn {fn}: {body}'
        elif len(names) == 1 and re.match(r'match \w+ \{', body):
            arms = [arm.split('=>') for arm in parts(block_after(body, 0))]
            if all(len(arm) == 2 and re.fullmatch(r"[\w:']+(\(_\))?|b'.'", arm[0].strip()) and re.fullmatch(r'[\w:]+', arm[1].strip()) for arm in arms):
                yield f'fn {fn}: a table of {len(arms)}'
    for found in re.finditer(r'.*(?:\* 256 \+|/ 256|>> 8|<< 8\)? \|).*', text):
        yield found[0].strip() + ' (bytes of a number)'


def point_6(name, text):
    for found in re.finditer(r'struct (\w+) \{', text):
        fields = parts(block_after(text, found.start()))
        arrays = [f for f in fields if re.search(r': \[', f)]
        counts = [f for f in fields if re.search(r'\b(count|len|held): usize', f)]
        if arrays and counts:
            yield f'struct {found[1]}: {len(arrays)} array(s) with a length beside'


def point_7(name, text):
    for fn, _, _, body in functions(text):
        for found in re.finditer(r'match ([\w.]+) \{', body):
            calls = [arm for arm in parts(block_after(body, found.start())) if re.search(r'=>\s*(?:\{\s*)?self(?:\.head)?\.\w+\(', arm)]
            if len(calls) >= 2:
                yield f'fn {fn}: match {found[1]}, {len(calls)} steps'


def shape(body):
    """A body with its names and numbers taken out."""
    tokens = re.findall(r'\w+|[^\w\s]', re.sub(r'//.*', '', body))
    keep = {'let', 'mut', 'while', 'for', 'in', 'if', 'else', 'match', 'return', 'as', 'self'}
    return ' '.join(t if t in keep or not re.match(r'\w', t) else 'x' for t in tokens)


def main():
    commit = sys.argv[1] if len(sys.argv) > 1 else None
    files = [(name, text) for name, text in sources(commit)]
    titles = [
        ('1 enums, flags and numbers', point_1, False), ('1 sentinels', point_1_sentinels, True), ('3 loops', point_3, False),
        ('4 copies, conversions', point_4, False), ('6 buffers', point_6, False), ('7 switches', point_7, False),
    ]
    for title, find, comments in titles:
        lines = [f'  {name}: {place}' for name, text in files for place in find(name, text if comments else plain(text))]
        print(f'{title}: {len(lines)}', *lines, sep='\n')
    alike = collections.defaultdict(list)
    facts = collections.defaultdict(list)
    groups = collections.defaultdict(list)
    for name, text in files:
        crate = name.split('/')[1]
        for fn, names, requires, body in functions(plain(text)):
            if len(shape(body).split()) >= 16 and 'no_mangle' not in body:
                alike[crate, shape(body)].append(fn)
            for fact in (part for r in requires for part in r.split(' × ')):
                facts[crate, re.sub(r'\bself\.', '', fact).strip('() ')].append(fn)
            for i in range(len(names) - 2):
                groups[crate, tuple(names[i:i + 3])].append(fn)
    lines = [f'  {crate}: ' + ', '.join(fns) for (crate, _), fns in alike.items() if len(fns) > 1]
    print(f'2 bodies of one shape: {len(lines)}', *lines, sep='\n')
    lines = [f'  {crate}: {fact}: ' + ', '.join(fns) for (crate, fact), fns in facts.items() if len(set(fns)) > 2]
    print(f'5 facts in three contracts or more: {len(lines)}', *lines, sep='\n')
    lines = [f'  {crate}: ({", ".join(names)}): ' + ', '.join(fns) for (crate, names), fns in groups.items() if len(fns) > 2]
    print(f'5 parameters that travel together: {len(lines)}', *lines, sep='\n')


main()
