#!/usr/bin/env python3
"""unused.py [--fix]: imports that their file does not cite (--fix takes them out; `rt tidy` does, in a crate that proves), and laws and definitions that
no file cites.
Run it in the repository's root. A law that a page under docs/ names is a promise and counts as cited; so does one that a must-fail edit names."""
import glob
import re
import sys

# `::` parts the path of a law that a function's `#[tactic(auto, using(..))]` names
BREAK = re.compile(r'(?:[\s(){};,.⌜⌝]|::)+')
USE = re.compile(r'^((?:ghost )?use )(\S+)\.\{(.*)\}(;?)$')


def read(path):
    with open(path, encoding='utf8') as file:
        return file.read()


def parts(name):
    """the words by which a file cites an imported name: those of an operator, the alias of a renamed one"""
    name = name.split(' as ')[-1].strip()
    return [p for p in name.split('◌') if p]


def thinned(path, text):
    """the file without the imported names that it does not cite"""
    lines = text.split('\n')
    body = '\n'.join(line for line in lines if not re.match(r'(ghost )?use |\s*--|\s*//', line))
    cited = set(BREAK.split(body))
    out = []
    for line in lines:
        match = USE.match(line)
        if match:
            names = [n.strip() for n in match.group(3).split(',')]
            kept = [n for n in names if n in cited or all(p in cited for p in parts(n))]
            if not kept:
                continue
            line = f'{match.group(1)}{match.group(2)}.{{{", ".join(kept)}}}{match.group(4)}'
        out.append(line)
    return '\n'.join(out)


def main():
    fix = '--fix' in sys.argv
    paths = glob.glob('crates/**/*.antt', recursive=True) + glob.glob('crates/**/*.rt', recursive=True)
    # what a check made is no source
    paths = [path for path in paths if not re.match(r'crates/[^/]+/out/', path)]
    texts = {path: read(path) for path in paths}
    stale = 0
    for path, text in texts.items():
        new = thinned(path, text)
        if new != text:
            stale += 1
            print(f'imports: {path}')
            if fix:
                with open(path, 'w', encoding='utf8') as file:
                    file.write(new)
                texts[path] = new
    counts = {}
    for path in paths + glob.glob('crates/*/must-fail/*.edit') + glob.glob('docs/*.md') + ['README.md']:
        text = texts.get(path) or read(path)
        lines = [line for line in text.split('\n') if not re.match(r'(ghost )?use |\s*--', line)]
        for word in BREAK.split('\n'.join(lines).replace('`', ' ')):
            counts[word] = counts.get(word, 0) + 1
    idle = 0
    for path, text in sorted(texts.items()):
        if not re.fullmatch(r'crates/\w+/(specs/.*|proofs/[^/]*)\.antt', path):
            continue
        for match in re.finditer(r'^( *)(?:unfoldable |abbrev )?pub ([^\s:]+) :', text, re.M):
            indent, name = match.groups()
            clauses = len(re.findall(rf'^{indent}{re.escape(name)}(?: |$)', text, re.M))
            if clauses and counts.get(name, 0) <= clauses + 1:
                idle += 1
                print(f'nothing cites: {path}: {name}')
    print(f'{stale} files with imports that they do not cite, {idle} laws or definitions that nothing cites')


main()
