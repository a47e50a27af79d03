#!/usr/bin/env python3
"""Brings the repository's own definitions, theorems, laws, fields and constructors to one spelling: snake case for what begins
with a small letter. Run once, at the top, after the kit's port.py, which respells only some of them.

`moveWords` and `user-fixed-most` become `move_words` and `user_fixed_most`. Where a definition and a law would fall together
(`fetchText` and `fetch-text`), the law's name gets `_law`. Functions, types, exported names, strings, inputs and outputs keep
their names. The crate `hex` becomes `hex_digits`, since the kit has a library of that name, and files `Contracts.antt`, whose
module name the kit makes itself, become `Clauses.antt`. Prints what it renamed.
"""
import re
import subprocess
import sys
from collections import defaultdict
from pathlib import Path

ROOT = Path(__file__).resolve().parent.parent
CRATES = ROOT / 'crates'
TOKEN = re.compile(r'[^\s(){}.;,"`\[\]|@⌜⌝«»:·/]+')
DECLARED = re.compile(r'^\s*(?:pub |abbrev |unfoldable )*((?:[^\s:(){}=.;,λ→]+ )+)(?:[({][^:]*:.*[)}] *)*:(?:\s|$)')
NO_NAMES = {'let', 'in', 'use', 'module', 'pub', 'abbrev', 'unfoldable', 'data', 'record', 'where', 'elim', 'unfolding'}
# laws whose names port.py has already made those of definitions, in the files that have the law and not the definition
MERGED = {
    'byte_at': ['records_roundtrip/proofs/ByteLaws.antt', 'records_roundtrip/proofs/MemoryLaws.antt'],
    'low_bits': ['decode/proofs/ShortLaws.antt', 'decode/proofs/fields/low/Proof.antt'],
    'mode_of': ['decode_tables/proofs/modes/find_monadic_mode/Proof.antt', 'decode_tables/proofs/Laws.antt'],
    'place_of': ['machine/proofs/CacheLaws.antt', 'parcels_listing/proofs/OneParcelList.antt',
                 'parcels_listing/proofs/ListingLaws.antt'],
    'word_at': ['machine/proofs/FlatLaws.antt'],
    # these two fall together with a definition in camel case
    'all_digits': None,
    'last_line': None,
    'ran_line': None,
}


def snake(name):
    return re.sub(r'(?<=[a-z0-9])[A-Z]', lambda m: '_' + m.group(0).lower(), name.replace('-', '_'))


def camel(name):
    return bool(re.search(r'[a-z0-9][A-Z]', name)) and '-' not in name


def code_of(line):
    """A line of antt without its comment."""
    return re.split(r'(?:^|\s)--', line)[0]


def declared(path):
    """Names that a file declares; of a function's proof those that are no answers."""
    names = set()
    for line in path.read_text(encoding='utf-8').splitlines():
        found = DECLARED.match(code_of(line) + ' ')
        if not found:
            continue
        words = found.group(1).split()
        if words[0] in NO_NAMES and words[0] not in ('data', 'record'):
            continue
        if path.name == 'Proof.antt' and re.search(r' : (?:tie|reads)\.', line):
            continue
        names.update(words)
    return {n for n in names - NO_NAMES if n[0].islower() or n[0] == '_'}


def renaming():
    """From old names to new ones; no two fall together."""
    own, seen = set(), set()
    for path in CRATES.rglob('*.antt'):
        own |= declared(path)
        for line in path.read_text(encoding='utf-8').splitlines():
            seen.update(TOKEN.findall(code_of(line)))
    taken = {snake(n) for n in seen if camel(n) and n[0].islower()} | {n for n in own if '_' in n}
    for path in CRATES.rglob('*'):        # other names that imports give
        if path.suffix in ('.rt', '.antt') and path.is_file():
            own.update(re.findall(r'\bas ([a-z]\w*(?:[A-Z]\w*|(?:-\w+)+))', path.read_text(encoding='utf-8')))
    names = {}
    for name in sorted(own):
        new = snake(name)
        if '-' in name and new in taken or MERGED.get(name, 0) is None:
            new += '_law'
        if new != name:
            names[name] = new
    return names


def in_code(text, names):
    return TOKEN.sub(lambda m: names.get(m.group(0), m.group(0)), text)


def in_comment(text, names):
    """Only names that no English text has: in camel case, or between backquotes."""
    text = TOKEN.sub(lambda m: names.get(m.group(0), m.group(0)) if camel(m.group(0)) else m.group(0), text)
    return re.sub(r'`[^`]*`', lambda m: in_code(m.group(0), names), text)


def antt(text, names):
    lines = []
    for line in text.split('\n'):
        code = code_of(line)
        lines.append(in_code(code, names) + in_comment(line[len(code):], names))
    return '\n'.join(lines)


def rattle(text, names):
    """Code has no such names but in its clauses and `ghost use` lines, and no law's; strings are left."""
    names = {old: new for old, new in names.items() if not new.endswith('_law')}
    lines = []
    for line in text.split('\n'):
        at = line.find('//')
        code, comment = (line, '') if at < 0 else (line[:at], line[at:])
        parts = re.split(r'("(?:[^"\\]|\\.)*")', code)
        lines.append(''.join(p if i % 2 else in_code(p, names) for i, p in enumerate(parts)) + in_comment(comment, names))
    return '\n'.join(lines)


def edit(text, names):
    lines = []
    for line in text.split('\n'):
        label = re.match(r'(?:old|new):', line)
        lines.append(label.group(0) + in_code(line[label.end():], names) if label else in_comment(line, names))
    return '\n'.join(lines)


def paths(text):
    """Paths of the renamed crate and files."""
    text = re.sub(r'\bRattle\.hex\.', 'Rattle.hex_digits.', text)
    text = re.sub(r'\bhex::', 'hex_digits::', text)
    return re.sub(r'(\bRattle\.(?:access_spec|datapath|fast|fast_dyadic)\.specs\.)Contracts\b', r'\1Clauses', text)


def documents(text, names):
    text = in_comment(text, names)
    text = re.sub(r'`hex`', '`hex_digits`', text)
    text = re.sub(r'\bhex/(specs|src|proofs|must-fail)', r'hex_digits/\1', text)
    text = re.sub(r'\bhex/(number_in_decimal|\w+)`', r'hex_digits/\1`', text)
    return text.replace('specs/Contracts.antt', 'specs/Clauses.antt')


def main():
    names = renaming()
    fallen = defaultdict(set)
    for old, new in names.items():
        fallen[new].add(old)
    for new, olds in fallen.items():
        if len(olds) > 1:
            sys.exit('%s: %s fall together' % (new, sorted(olds)))
    for name, where in MERGED.items():
        for file in where or []:
            path = CRATES / file
            if not path.exists():       # in another revision
                continue
            path.write_text(antt(path.read_text(encoding='utf-8'), {name: name + '_law'}), encoding='utf-8')
    for path in sorted(CRATES.rglob('*')):
        kinds = {'.antt': antt, '.rt': rattle, '.edit': edit}
        if path.suffix in kinds and path.is_file():
            text = path.read_text(encoding='utf-8')
            new = paths(kinds[path.suffix](text, names))
            if path == CRATES / path.parts[len(CRATES.parts)] / 'specs' / 'Lib.antt':
                new = re.sub(r'\bmod Contracts\b', 'mod Clauses', new)
            if new != text:
                path.write_text(new, encoding='utf-8')
    for path in [ROOT / 'README.md', ROOT / 'CONTRIBUTING.md', *sorted((ROOT / 'docs').rglob('*.md')), ROOT / 'bench' / 'RESULTS.md']:
        text = path.read_text(encoding='utf-8')
        path.write_text(paths(documents(text, names)), encoding='utf-8')
    text = (ROOT / 'crates.txt').read_text(encoding='utf-8')
    (ROOT / 'crates.txt').write_text(re.sub(r'\bhex\b', 'hex_digits', text), encoding='utf-8')
    subprocess.run(['git', 'mv', 'crates/hex', 'crates/hex_digits'], cwd=ROOT, check=True)
    for path in sorted(CRATES.glob('*/specs/Contracts.antt')):
        subprocess.run(['git', 'mv', str(path), str(path.with_name('Clauses.antt'))], cwd=ROOT, check=True)
    for old, new in sorted(names.items()):
        print(old, new)


if __name__ == '__main__':
    main()
