#!/usr/bin/env python3
"""Counts the places in crates/*/src (and proofs, for point 8) that an older form may hide in.

    tools/places.py [FOLDER] [--list]

FOLDER is a checkout, this one if left out. Each row is a point of docs/DESIGN-PASS.md with a letter for what is
looked for; `--list` names every place. A row is a place to look at, not a fault: the page says which stay, and why.
"""
import collections
import pathlib
import re
import sys

FUNCTION = re.compile(r'^\s*(?:pub(?:\(\w+\))? )?(?:final )?fn (\w+)')

# Looked for in single lines of src/.
LINES = {
    '1a own enums': r'^\s*(?:pub(?:\([a-z]+\))? )?enum \w+',
    '1b a number for none': r'^\s*// .*(?:, or (?:n\b|the number of|the net.s end)|first number that is not)',
    '1c a result passed on or taken apart by hand':
        r'(?:Ok|Err|Some|None)(?:\(\w*\))? => (?:\{$|return |Ok|Err|Some|None|\w+,$|0,$|false,$|true,$)',
    '1d a flag beside a value': r'^\s*(?:pub )?(?:more|done|found|valid|has_\w+|is_\w+): bool',
    '3a a counted index': r'^\s*for \w+ in (?:0|from|start)\.\.',
    '3b while': r'^\s*while ',
    '3c a search by hand': r'^\s*return (?:Some\()?(?:i|at|k|f|v|Ok\(i\)|Err\(i\)|true|false)\)?;$',
    '3d a bound tested before an index': r'if \(?\w+(?: as usize)?\)? (?:<|>=) [\w.]+\.len\(\)',
    '4a types without equality': r'^#\[derive\((?!.*PartialEq)',
    '4b conversions by hand': r'^\s*(?:pub(?:\([a-z]+\))? )?fn (?:\w+_of|layer_of|kind_of_letter|number_of|yes_or_no|told|below|fault_in|refusal)\b.*\(',
    '4c printing by hand': r'-> Result<String, AllocError>$|-> &\'static str',
    '6a fixed buffers': r'^\s*(?:pub(?:\([a-z]+\))? )?\w+: \[\w+(?:<\w+>)?; \d+\],',
    '6b a length beside': r'^\s*(?:pub(?:\([a-z]+\))? )?(?:len|parts|nets|total|used): usize,',
    '7a a switch on a step': r'match (?:\*?step|\*?question|\*?file|self\.\w*kind) ',
    '7b boxed or dynamic calls': r'\bdyn \w|Box<|\bfn\(',
}


def files(top, *kinds):
    for kind in kinds:
        yield from sorted(top.glob(f'crates/*/{kind}'))


def functions(text):
    """The functions of a file: name, parameters, clauses of `requires`."""
    lines = text.split('\n')
    for at, line in enumerate(lines):
        found = FUNCTION.match(line)
        if not found:
            continue
        head = []
        for later in lines[at:]:
            head.append(later)
            if re.match(r'^\s*(?:.*\S )?\{$', later) or later.rstrip().endswith(';'):
                break
        head = '\n'.join(head)
        inside = head[head.index('('):]
        yield found.group(1), set(re.findall(r'(\w+): ', inside.split('->')[0].split('requires')[0])), \
            re.findall(r'requires(?: \w+)? \{ (.*) \}', head)


def main():
    words = [word for word in sys.argv[1:] if word != '--list']
    top = pathlib.Path(words[0] if words else pathlib.Path(__file__).parent.parent)
    rows = collections.defaultdict(list)
    facts, pairs = collections.defaultdict(set), collections.defaultdict(set)
    shapes = collections.defaultdict(list)
    for path in files(top, 'src/**/*.rt'):
        name, text = str(path.relative_to(top)), path.read_text()
        for row, pattern in LINES.items():
            for number, line in enumerate(text.split('\n'), 1):
                if re.search(pattern, line):
                    rows[row].append(f'{name}:{number}')
        for function, parameters, requires in functions(text):
            place = f'{name} {function}'
            crate = name.split('/')[1]
            for fact in ' × '.join(requires).replace('(', '').replace(')', '').split(' × '):
                fact = re.sub(r'\b[\w.]+\.(?:now|old)\b|\bself\b', 'x', fact)
                if fact:
                    facts[crate, fact].add(place)
            parameters -= {'self'}
            for one in parameters:
                for other in parameters:
                    if one < other:
                        pairs[crate, one, other].add(place)
        # Functions of one shape: the body with names and numbers left out.
        for match in re.finditer(r'^\s*(?:pub(?:\([a-z]+\))? )?fn (\w+).*?^\{?\n?(?: {0,4})\{\n(.*?)^ {0,4}\}$', text, re.M | re.S):
            body = re.sub(r'\s+', ' ', re.sub(r'\b[\w:]+\b', 'x', match.group(2))).strip()
            if body.count('x') >= 6:
                shapes[body].append(f'{name} {match.group(1)}')
    for places in shapes.values():
        if len(places) > 1:
            rows['2a functions of one shape'].append(' = '.join(places))
    for (crate, fact), places in facts.items():
        if len(places) >= 3:
            rows['5a a fact asked for in three functions or more'].append(f'{crate}: {fact} ({len(places)})')
    for (crate, one, other), places in pairs.items():
        if len(places) >= 3:
            rows['5b parameters together in three functions or more'].append(f'{crate}: {one}, {other} ({len(places)})')
    for path in files(top, 'proofs/**/Answers.antt'):
        for line in path.read_text().split('\n'):
            found = re.match(r'^(?:pub )?([\w-]+) : goal\.', line)
            if found:
                rows['8a answers'].append(f'{path.relative_to(top)} {found.group(1)}')
    for path in files(top, 'proofs/*.antt'):
        for line in path.read_text().split('\n'):
            found = re.match(r'^(?:abbrev |unfoldable )?(?:pub )?([\w-]+) :', line)
            if found:
                rows['8b lemmas'].append(f'{path.relative_to(top)} {found.group(1)}')
    for row in sorted(rows):
        print(f'{row}: {len(rows[row])}')
        if '--list' in sys.argv:
            print(''.join(f'    {place}\n' for place in rows[row]), end='')


main()
