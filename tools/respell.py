#!/usr/bin/env python3
"""Spells the repository's own definitions and lemmas as today's Rattle does: words in snake case, parted by `_`.

Run once at the top of the checkout, after port.py. A name is renamed where a file of specs/ or a lemma file of proofs/ declares it; it is
replaced as a whole token in .antt files, in .rt files outside strings, in must-fail edits, and in the pages where it stands in backticks.
Rust's functions, strings, inputs and outputs keep their names. Document 01's symbols (f, S, R, T, N) keep their case.
"""
import collections
import glob
import re
import sys

DECLARED = re.compile(r'^\s*(?:unfoldable |abbrev |pub |record |data )*([^\s:(){}.;,|]+)(?: \([^)]*\))* :(?!:)')
TOKEN = re.compile(r'''[^\s(){}.;,:"`|⌜⌝]+''')

# Two of our names that would become one, or a name that would become one of the library's: what each is called.
APART = {
    'columns-in': 'columns_run',
    'head-of': 'head_bytes_of',
    'half_at': 'half_at_put',
    'half-bytes': 'half_bytes_put',
    'record-bytes': 'record_bytes_put',
    'head_bytes': 'head_bytes_put',
    'of-board': 'of_board_counted',
    'record-at': 'record_at_read',
    'for-boards': 'for_each_board',
    'in-flight': 'in_flight_is',
    'received-by': 'received_by_is',
}


def snake(name):
    if '◌' in name:
        return name
    words = []
    for word in name.split('-'):
        if not re.match(r'[A-Z]', word):
            word = re.sub(r'([a-z0-9])([A-Z])', lambda m: m.group(1) + '_' + m.group(2).lower(), word)
            word = re.sub(r'([a-z])(ℤ|ℕ)', r'\1_\2', word)
        words.append(word)
    return '_'.join(words)


def declared():
    names = collections.defaultdict(set)
    for path in sorted(glob.glob('crates/*/specs/**/*.antt', recursive=True) + glob.glob('crates/*/proofs/*.antt')):
        for line in open(path, encoding='utf-8'):
            found = DECLARED.match(line)
            if found and not line.lstrip().startswith('--'):
                names[found.group(1)].add(path)
    return names


def imports():
    """The names that files take from libraries, with where each comes from."""
    taken = collections.defaultdict(set)
    ours = '|'.join(sorted(p.split('/')[1] for p in glob.glob('crates/*/src')))
    for path in files('.antt') + files('.rt'):
        for module, names in re.findall(r'use ([\w.]+)\.\{([^}]*)\}', open(path, encoding='utf-8').read()):
            if not re.match(r'(?:Rattle\.)?(?:%s|crate)(?:\.|::|$)' % ours, module):
                for name in names.split(','):
                    taken[name.strip()].add(module)
    return taken


def files(*ends):
    return sorted(p for p in glob.glob('crates/**/*', recursive=True) if p.endswith(ends) and '/out/' not in p)


def tokens(text, new):
    return TOKEN.sub(lambda m: new.get(m.group(0), m.group(0)), text)


def prose(text, new):
    """A comment or a page: names in backticks, and words that only a name is spelled as."""
    text = re.sub(r'`[^`\n]*`', lambda m: tokens(m.group(0), new), text)
    return TOKEN.sub(lambda m: new[m.group(0)] if m.group(0) in new and re.search(r'[a-z][A-Z]', m.group(0)) else m.group(0), text)


def line_of(text, new, mark):
    """A line of code and its comment; what stands in quotes is kept."""
    parts = re.split(r'("(?:[^"\\]|\\.)*")', text)
    out = []
    for k, part in enumerate(parts):
        if k % 2:
            out.append(part)
            continue
        at = part.find(mark)
        if at < 0:
            out.append(tokens(part, new))
        else:
            return ''.join(out) + tokens(part[:at], new) + prose(part[at:] + ''.join(parts[k + 1:]), new)
    return ''.join(out)


def edit_of(text, new):
    lines = []
    for line in text.split('\n'):
        code = re.match(r'(old:|new:)', line)
        lines.append(tokens(line, new) if code else prose(line, new))
    return '\n'.join(lines)


def rewrite(path, turn):
    before = open(path, encoding='utf-8').read()
    after = turn(before)
    if after != before:
        open(path, 'w', encoding='utf-8').write(after)
        return 1
    return 0


def main():
    names = declared()
    new = {n: APART.get(n, snake(n)) for n in names}
    new = {n: s for n, s in new.items() if s != n}
    together = collections.defaultdict(set)
    for n in names:
        together[new.get(n, n)].add(n)
    taken = imports()
    for s, olds in sorted(together.items()):
        if len(olds) > 1:
            print('falls together:', s, sorted(olds))
        if s in taken and s not in names:
            print('the library has:', s, sorted(taken[s]), sorted(olds))
        for n in olds:
            if n in taken and n in new:
                print('imported too:', n, sorted(taken[n]))
    if '--dry' in sys.argv:
        return
    changed = 0
    for path in files('.antt'):
        changed += rewrite(path, lambda t: '\n'.join(line_of(l, new, '--') for l in t.split('\n')))
    for path in files('.rt'):
        changed += rewrite(path, lambda t: '\n'.join(line_of(l, new, '//') for l in t.split('\n')))
    for path in files('.edit'):
        changed += rewrite(path, lambda t: edit_of(t, new))
    for path in ['README.md'] + sorted(glob.glob('docs/**/*.md', recursive=True)):
        changed += rewrite(path, lambda t: prose(t, new))
    print(len(new), 'names,', changed, 'files')


if __name__ == '__main__':
    main()
