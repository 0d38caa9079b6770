#!/usr/bin/env python3
"""Brings the project's own names to the spelling of today's Rattle, once, after the toolchain's port.py.

usage: python3 tools/respell.py      at the top of the repository, in the tree that port.py left

- specs/Contracts.antt of each crate becomes specs/Promises.antt: Rattle makes a module `specs.contracts` of its own.
- Definitions and lemmas of specs/ and proofs/ get names in snake case; where a lemma's name would fall together with that of the
  definition that it speaks of, it ends in `_is`. Names of src/, exported names, strings, inputs and outputs stay.
- Own types, which are plain values, derive Clone and Copy; the root file of a crate asks for the check's tactics.
- Must-fail edits of specs/ and proofs/ get the same names, and those of the library as port.py has them; so do the pages, in backticks.
"""
import collections
import pathlib
import re
import sys

ROOT = pathlib.Path(__file__).resolve().parent.parent
CRATES = ROOT / 'crates'
TOKEN = re.compile(r"[^\s(){}\[\];,.]+")
MODULES = {'Contracts': 'Promises'}

# Lemmas whose plain name is that of a definition; in `Demand1`, whose fields are named after the calls, there is none.
LEMMAS = {
    'body-length': 'body_length_is', 'chip-number': 'chip_number_is', 'plan-fits': 'plan_fits_is', 'plan-in': 'plan_in_is', 'plan-by': 'plan_by_is',
    'script-length': 'script_length_is', 'speeds-pass': 'speeds_pass_is', 'temperatures-pass': 'temperatures_pass_is',
    'register-at': 'register_at_is', 'watch-of': 'watch_of_is',
}
# .. of which port.py has turned some already
LEMMAS_OF = {'translation': {'goes_on': 'goes_on_is'}, 'pages': {'no_table': 'no_table_is'}, 'records': {'record_of': 'record_of_is'}}

# Pages that name definitions and lemmas as they are now.
PAGES = ('README.md', 'CONTRIBUTING.md', 'docs/CONTRACTS.md', 'docs/CARDS.md', 'docs/DECISIONS.md')

# The library's words in must-fail edits, which port.py leaves.
LIBRARY = {
    'getD': 'get_or', 'bitAnd': 'bit_and', 'bitOr': 'bit_or', 'leZ': 'le_z', 'ltZ': 'lt_z', 'negℤ': 'neg_ℤ', 'toZ': 'to_z', 'ofZ': 'of_z', 'natAbs': 'nat_abs',
    'nonNeg': 'non_neg', 'subℕ': 'sub_ℕ',
}


def snake(name):
    if name[0].isupper():
        return name
    words = re.sub(r'(?<=[a-z0-9])[A-Z]', lambda m: '_' + m.group().lower(), name)
    return words.replace('-', '_')


def own_files():
    for path in sorted(CRATES.rglob('*.antt')):
        if 'out' not in path.relative_to(CRATES).parts:
            yield path


def is_proof_of_a_function(path):
    parts = path.relative_to(CRATES).parts
    return parts[1] == 'proofs' and len(parts) > 3


def own_names():
    """Every name of a definition, a lemma, a field or a constructor, but for those in the proof of a function."""
    names = set()
    for path in own_files():
        if is_proof_of_a_function(path) or path.name == 'Lib.antt':
            continue
        for line in path.read_text().splitlines():
            if line.lstrip().startswith('--'):
                continue
            m = re.match(r"\s*(?:(?:abbrev|unfoldable|pub)\s+)*([^\s:(){}]+(?: [^\s:(){}]+)*) :(?:\s|$)", line)
            if m:
                names.update(m.group(1).split())
    return names


def imported_from_elsewhere(text, crates):
    """Names that a file imports from a library, which keep their spelling in it."""
    names = set()
    for module, listed in re.findall(r'^\s*(?:ghost )?use ([^\s{]+)\.\{([^}]*)\}', text, re.M):
        m = re.match(r'Rattle\.(\w+)\.', module + '.')
        if not (m and m.group(1) in crates):
            names.update(re.sub(r' as .*', '', n.strip()) for n in listed.split(','))
    return names


def renamer(path, names, kept):
    crate = path.relative_to(CRATES).parts[0]
    demands = path.name == 'Demands.antt' and crate == 'clib'
    proof = is_proof_of_a_function(path)

    def new(name, before):
        if name in kept:
            return name
        special = {} if demands else LEMMAS | LEMMAS_OF.get(crate, {})
        if name in special and not (before == '.' and proof and name not in ('plan-in', 'record_of')):
            return special[name]
        return snake(name) if name in names else name

    def line(text):
        return TOKEN.sub(lambda m: new(m.group(), text[m.start() - 1:m.start()]), text)

    return line


def in_backticks(line, rename):
    return re.sub(r'`[^`]*`', lambda m: rename(m.group()[1:-1]).join('``'), line)


def modules(text):
    return re.sub(r'(?<=specs[./])Contracts\b', 'Promises', text)


def antt(text, rename):
    lines = []
    for line in modules(text).splitlines():
        code, dash, comment = re.match(r'((?:[^-]|-(?!-)|(?<=\S)-)*)(--)?(.*)', line).groups()
        lines.append(rename(code) + (dash or '') + in_backticks(comment, rename))
    return '\n'.join(lines) + '\n'


def rt(text, rename):
    """In src/ only imports of ghost names, clauses, and names in a comment's backticks."""
    lines, depth = [], 0
    for line in modules(text).splitlines():
        stripped = line.strip()
        if depth or re.match(r'(ghost use|requires|ensures|ghost)\b', stripped):
            line = rename(line)
            depth += line.count('{') - line.count('}')
        elif stripped.startswith('//'):
            line = in_backticks(line, rename)
        lines.append(line)
    return '\n'.join(lines) + '\n'


def edit(text, rename):
    lines, target = [], ''
    for line in text.splitlines():
        m = re.match(r'(file|old|new): ?(.*)', line)
        if m and m.group(1) == 'file':
            target = m.group(2)
            line = line.replace('specs/Contracts.antt', 'specs/Promises.antt')
        elif m and target.endswith('.antt'):
            body = TOKEN.sub(lambda t: LIBRARY.get(t.group(), t.group()), modules(line[5:]))
            body = re.sub(r'(?<=[\w\')]) \.(?=[a-z0-9])', '.', rename(body)).replace('′', "'")
            line = line[:5] + re.sub(r"\((\w+\.\w+)\)", r'\1', body)
        elif m:
            line = line[:5] + re.sub(r"λ r\. ⌜ (.*) ⌝", r'\1', line[5:]).replace('⌜ ', '').replace(' ⌝', '')
        lines.append(line)
    return '\n'.join(lines) + '\n'


def main():
    crates = {path.name for path in CRATES.iterdir()}
    for path in CRATES.glob('*/specs/Contracts.antt'):
        path.rename(path.with_name('Promises.antt'))
    for path in CRATES.glob('*/specs/Lib.antt'):
        path.write_text(re.sub(r'^pub mod Contracts$', 'pub mod Promises', path.read_text(), flags=re.M))
    names = own_names()
    together = collections.defaultdict(set)
    for path in own_files():
        text = path.read_text()
        kept = imported_from_elsewhere(text, crates)
        rename = renamer(path, names, kept)
        turned = antt(text, rename)
        for name in set(TOKEN.findall(text)):
            if name in names and name not in kept:
                together[path, rename(name)].add(name)
        for name in kept:
            together[path, name].add(name)
        path.write_text(turned)
    for (path, name), old in sorted(together.items()):
        if len(old) > 1:
            print(f'{path.relative_to(ROOT)}: {", ".join(sorted(old))} fall together as {name}')
    for path in sorted(CRATES.rglob('*.rt')):
        text = path.read_text()
        kept = imported_from_elsewhere(text, crates)
        text = rt(text, renamer(path, names, kept))
        text = text.replace('#[derive(Drop)]', '#[derive(Clone, Copy)]')
        if path.name in ('lib.rt', 'main.rt') and path.parent.name == 'src' and '#![tactic' not in text:
            head = re.match(r'(?://.*\n)*', text).end()
            text = text[:head] + '#![tactic(auto)]\n\n' + text[head:].lstrip('\n')
        path.write_text(text)
    new_names = {snake(name) for name in names} | set(LEMMAS.values())

    def older(text):
        """Words of a text that name what port.py or this script has turned."""
        return {word for word in re.findall(r"[^\s(){}\[\];,.`]+", text) if snake(word) in new_names}

    for path in sorted(CRATES.glob('*/must-fail/*.edit')):
        text = path.read_text()
        path.write_text(edit(text, renamer(path, older(text), set())))
    for path in PAGES:
        text = (ROOT / path).read_text()
        rename = renamer(CRATES / 'clib' / 'specs' / 'Demands.antt', older(text), set())
        text = re.sub(r'specs/\s*Contracts\.antt', lambda m: m.group().replace('Contracts', 'Promises'), page(text, rename))
        (ROOT / path).write_text(text)
    for path in sorted(CRATES.glob('*/must-fail/*.edit')):
        for fault in faults(path):
            print(f'{path.relative_to(ROOT)}: {fault}')


def page(text, rename):
    """Names in a page's backticks and in its indented lines."""
    return '\n'.join(rename(line) if line.startswith('    ') and ' : ' in line else in_backticks(line, rename) for line in text.splitlines()) + '\n'


def faults(path):
    """Why an edit's text no longer stands."""
    target, text = None, {}
    for line in path.read_text().splitlines():
        m = re.match(r'(file|old|new): ?(.*)', line)
        if not m:
            continue
        kind, value = m.groups()
        if kind == 'file':
            target = path.parent.parent / value
            text.setdefault(target, target.read_text() if target.exists() else '')
        elif kind == 'old':
            old = value
            if text[target].count(value) != 1:
                yield f'its text stands {text[target].count(value)} times in {target.name}: {value}'
        else:
            text[target] = text[target].replace(old, value, 1)


if __name__ == '__main__':
    sys.exit(main())
