#!/usr/bin/env python3
"""Counts the places of older forms in crates/*/src: of the work tree, or of a commit that is named.

    python3 tools/forms.py [COMMIT] [--list]

Each line is a kind of place and how many there are; with --list the places follow it. What a count finds is a place to
read, not a verdict: docs/DESIGN-PASS.md says what became of each.
"""
import collections
import re
import subprocess
import sys

FUNCTION = re.compile(r'\bfn (\w+)(?:<[^>]*>)?\((.*?)\)\s*(?:->|\n|\{|where)', re.S)
LINES = {
    '1 enums': r'^\s*(?:pub(?:\(crate\))? )?enum \w+',
    '1 kinds written as numbers': r'\bkind: [0-9]',
    '1 kinds compared': r'\bkind (?:==|!=|<|>) |\bmatch \w+(?:\.\w+)*\.kind\b',
    '1 flags in structs': r'^\s+(?:pub(?:\(crate\))? )?\w+: bool,',
    '1 numbers less or more one, or 0 for none': r'(?:mark|old|at) (?:==|>=|>) [0-9]\b|\b(?:mark|at) - [12]\b|\+ 2;|place \+ [12]\b',
    '3 loops': r"^\s*(?:'\w+: )?(?:while|loop|for \S.* in) ",
    '3 loops that count by hand': r"^\s*(?:'\w+: )?(?:while [^l].*[<>]|for \w+ in (?:\w+(?:\(.*?\))?|[\w.]+)\.\.)",
    '4 fields compared one by one': r'\.kind == \w+\.kind && ',
    '4 conversions, words and printing by hand': r'\bfn (?:refusal|word|put_number|letters_of|base_name|read_number|short_at|say_refusal|tell_fault|narrow)\b',
    '6 arrays with a length beside them': r'^\s+(?:pub(?:\(crate\))? )?(?:count|used|depth|len): (?:u16|usize|&mut u32|u32),',
    '7 a switch on which step to run': r'\benum (?:Question|Trial)\b|\bfn (?:is_answered|perform|carry_out)\b',
}


def read(commit):
    """The source files, as pairs of a path and a text."""
    if commit is None:
        paths = subprocess.check_output(['git', 'ls-files', ':(glob)crates/*/src/**'], text=True).split()
        return [(path, open(path, encoding='utf8').read()) for path in paths]
    listed = subprocess.check_output(['git', 'ls-tree', '-r', '--name-only', commit, 'crates'], text=True).split()
    paths = [path for path in listed if re.match(r'crates/\w+/src/', path)]
    return [(path, subprocess.check_output(['git', 'show', f'{commit}:{path}'], text=True)) for path in paths]


def by_line(files, pattern):
    for path, text in files:
        for number, line in enumerate(text.splitlines(), 1):
            if re.search(pattern, line) and not line.lstrip().startswith('//'):
                yield f'{path}:{number}: {line.strip()}'


def functions(files):
    for path, text in files:
        for found in FUNCTION.finditer(text):
            parts = [re.sub(r"'\w+ ", '', part.strip()) for part in found.group(2).split(',') if ':' in part]
            yield path, found.group(1), parts


def twins(files):
    """Functions of one name in several files or types, but for those of traits that std or the library names."""
    places = collections.defaultdict(list)
    for path, name, _ in functions(files):
        places[name].append(path)
    common = {'from', 'fmt', 'drop', 'main', 'new', 'next', 'count', 'find', 'node', 'nodes'}
    for name, paths in sorted(places.items()):
        if len(paths) > 1 and name not in common:
            yield f'{name}: {", ".join(paths)}'


def together(files):
    """Pairs of parameters that travel together through three functions or more."""
    pairs = collections.Counter()
    for _, _, parts in functions(files):
        for i, one in enumerate(parts):
            for other in parts[i + 1:]:
                pairs[one, other] += 1
    for (one, other), count in pairs.most_common():
        if count >= 3:
            yield f'{count}: {one}, {other}'


def facts(files):
    """Clauses that stand in the `requires` of three functions or more."""
    clauses = collections.Counter()
    for _, text in files:
        clauses.update(re.findall(r'^\s+requires(?: \w+)? (\{.*\})$', text, re.M))
    for clause, count in clauses.most_common():
        if count >= 3:
            yield f'{count}: {clause}'


def main(words):
    names = [word for word in words if not word.startswith('--')]
    files = read(names[0] if names else None)
    found = {kind: list(by_line(files, pattern)) for kind, pattern in LINES.items()}
    found['2 functions of one name'] = list(twins(files))
    found['5 parameters that travel together'] = list(together(files))
    found['5 facts in three contracts'] = list(facts(files))
    for kind in sorted(found):
        print(f'{kind}: {len(found[kind])}')
        if '--list' in words:
            for place in found[kind]:
                print(f'    {place}')


main(sys.argv[1:])
