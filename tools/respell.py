#!/usr/bin/env python3
"""respell: brings the project's own definitions and lemmas to today's spelling: words in snake case (`messageOf` to `message_of`, `never-past` to `never_past`).

tools/respell.py [--list]     from the project's root, once, behind the kit's port.py. --list prints the names and writes nothing

A name is respelled if a file of specs/ or proofs/ declares it, no library has it, and it isn't the name of a goal. Names of src/ stay. A new name that is taken already,
in any file, gets `_lem` behind it. Renamed are its uses in specs/, proofs/, clauses, edits, and what stands in backticks in pages.
"""
import glob
import os
import re
import sys

NAME = r'[^\s(){}.;,@"«»:`]+'
DECLARED = re.compile(r'^(\s*)((?:abbrev |unfoldable |pub |data |record )*)(' + NAME + r')((?: \{[^{}\n]*\}| \([^()\n]*\))*) :(?= |$)(.*)')
TOKEN = re.compile(r'(?<![^\s(){};,@"«»:`.\[\]])(' + NAME + r')(?![^\s(){}.;,@"«»:`\]])')
USE = re.compile(r'^\s*(?:ghost )?use ([^\s;{]+?)(?:\.\{([^}]*)\})?(?: as \S+)?;?$', re.M)
OWN_LINE = re.compile(r'--.*$')


def snake(name):
    words = re.sub(r'(?<=[a-z0-9])[A-Z]', lambda m: '_' + m[0].lower(), name)
    return words.replace('-', '_')


def wanted(name):
    """Whether a name isn't in today's spelling. One that begins with a capital is a fact's or a field's of the protocol; a capital behind a dash too."""
    if name[0].isupper() or not name[0].isalpha():
        return False
    return '-' in name or re.search(r'[a-z0-9][A-Z]', name) is not None


def read(path):
    with open(path, encoding='utf-8') as f:
        return f.read()


def stored():
    """The table beside this file, if it is there: each name and its new spelling. --list makes it."""
    table = os.path.join(os.path.dirname(os.path.realpath(__file__)), 'respelled.tsv')
    return dict(line.split('\t') for line in read(table).splitlines()) if os.path.exists(table) and '--list' not in sys.argv else {}


def main(argv):
    crates = sorted(os.listdir('crates'))
    antt = sorted(glob.glob('crates/*/specs/**/*.antt', recursive=True) + glob.glob('crates/*/proofs/**/*.antt', recursive=True))
    rt = sorted(glob.glob('crates/*/src/**/*.rt', recursive=True))
    edits = sorted(glob.glob('crates/*/must-fail/*.edit'))
    texts = {p: read(p) for p in antt + rt + edits}
    declared, fields, library, tokens = set(), set(), set(), set()
    for p in antt:
        for line in texts[p].split('\n'):
            m = DECLARED.match(line)
            if m and not line.lstrip().startswith('--') and not m[5].lstrip().startswith(('tie.', 'goal.')):
                declared.add(m[3])
                if m[1]:
                    fields.add(m[3])
    for p in antt + rt:
        for m in USE.finditer(texts[p]):
            first = m[1].split('.')
            own = first[0] == 'Rattle' and len(first) > 1 and first[1] in crates
            if not own and m[2]:
                library |= {re.sub(r' as .*', '', n.strip()) for n in m[2].split(',')}
        tokens |= set(TOKEN.findall(texts[p])) | set(re.findall(r'[A-Za-z_]\w*', texts[p]))
    new, taken = stored(), set(tokens)
    if new and '--list' not in argv:
        declared = set()
    for name in sorted(declared - library, key=lambda n: ('-' in n, n)):
        if not wanted(name):
            continue
        to = snake(name)
        ways = [to, to + '_lem', to + '_law'] if '-' in name or to.endswith('_of') else [to, to + '_of', to + '_lem']
        to = next((w for w in ways if w not in taken), None)
        if to is None:
            print(f'left: {name}')
            continue
        taken.add(to)
        new[name] = to
    if '--list' in argv:
        for n, t in new.items():
            print(n, t, sep='\t')
        return 0

    def renamed(text, dashes, qualified=True):
        def one(m):
            n = m[1]
            if n not in new or '-' in n and not dashes:
                return n
            at = m.start(1)
            if at and text[at - 1] == '.' and '-' in n and (n not in fields or not qualified):
                return n
            return new[n]
        return TOKEN.sub(one, text)

    for p in antt:
        out = []
        for line in texts[p].split('\n'):
            at = line.find('--')
            code, said = (line, '') if at < 0 else (line[:at], line[at:])
            out.append(renamed(code, True) + renamed(said, False))
        texts[p] = '\n'.join(out)
    for p in rt:
        texts[p] = '\n'.join(renamed(l, l.startswith('ghost use')) for l in texts[p].split('\n'))
    for p in edits:
        inside = ''
        out = []
        for l in texts[p].split('\n'):
            if l.startswith('file:'):
                inside = l
            out.append(l if l.startswith(('file:', '#')) and '-' in l and not l.startswith('#') else renamed(l, '.antt' in inside and not l.startswith('#') or l.startswith('at:')))
        texts[p] = '\n'.join(out)
    for p in sorted(glob.glob('*.md') + glob.glob('docs/**/*.md', recursive=True)):
        texts[p] = re.sub(r'`[^`\n]+`', lambda m: '`' + renamed(m[0][1:-1], True) + '`', read(p))
    n = 0
    for p, t in texts.items():
        if t != read(p):
            with open(p, 'w', encoding='utf-8') as f:
                f.write(t)
            n += 1
    print(f'{len(new)} names respelled in {n} files')
    return 0


sys.exit(main(sys.argv[1:]))
