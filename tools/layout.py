#!/usr/bin/env python3
"""Breaks the lines over 160 characters in the files of the functions' proofs (Answers.antt, Invariants.antt, Proof.antt), without a change of what they
say. Then `rt fmt`. A line that it finds no place in is left as it is; tools/style names it.

    tools/layout.py [CRATE..]      in the repository's root; all crates if none is named
"""
import glob
import re
import sys

LONG = 160  # a line of more characters is broken
WIDE = 140  # into lines of at most this many, where it can be
DEEP = 8    # a continued line is set in by four columns, up to this column


def walk(text):
    """(place, character, brackets open behind it) of each character"""
    depth = 0
    for place, letter in enumerate(text):
        depth += (letter in '({⟨') - (letter in ')}⟩')
        yield place, letter, depth


def split_at(text, mark):
    """the parts of a text between the marks that stand outside all brackets"""
    parts, begin = [], 0
    for place, letter, depth in walk(text):
        if letter == mark and depth == 0:
            parts.append(text[begin:place].strip())
            begin = place + 1
    return [part for part in parts + [text[begin:].strip()] if part]


def is_bracketed(text):
    """Is the text one pair of brackets and what stands in it?"""
    if not text or text[0] not in '({':
        return False
    return next((place for place, _, depth in walk(text) if depth == 0), None) == len(text) - 1


def spaces(text):
    """(brackets open, place) of each space at which a term can go on in the next line"""
    for place, letter, depth in walk(text):
        before, after = text[:place], text[place + 1:]
        if letter == ' ' and re.match(r'[(_\w∙×≡∷⊛→‵]', after) and re.search(r'[)\]}\w′!$,∵→]$', before):
            if not re.search(r'(?:λ|\blet|\bin|: \S+ →)$', before):
                yield depth, place


def wrapped(line):
    """the line, over several if it is long: behind `in` and `=`, a tuple by its parts, a record by its fields, facts by `×`, else between arguments"""
    text = line.lstrip(' ')
    pad = line[:len(line) - len(text)]
    deeper = pad if len(pad) >= DEEP else pad + '    '
    if len(line) <= LONG or text.startswith('--'):
        return line
    imported = re.match(r'use (\S*)\.\{(.*)\}$', text)
    if imported:
        return wrapped_import(imported.group(1), split_at(imported.group(2), ','))
    named = re.match(r'(let (?:(?! in ).)* in) (.*)$', text)
    if named:
        return wrapped(pad + named.group(1)) + '\n' + wrapped(pad + named.group(2))
    clause = re.match(r'([^({]*? =) (.*)$', text)
    if clause and not text.startswith('let '):
        return pad + clause.group(1) + '\n' + wrapped(pad + '    ' + clause.group(2))
    end = text[-1] if text[-1] in ',;' else ''
    term = text[:-1] if end else text
    if is_bracketed(term) and len(split_at(term[1:-1], ',')) > 1 and not is_chain(term):
        parts = [wrapped(f'{pad}  {part},') for part in split_at(term[1:-1], ',')]
        return '\n'.join([pad + '('] + parts + [pad + ')' + end])
    if term.startswith('record {') and is_bracketed(term[7:]):
        fields = [wrapped(f'{pad}  {field};') for field in split_at(term[8:-1], ';')]
        return '\n'.join([pad + 'record {'] + fields + [pad + '}' + end])
    facts = split_at(term, '×')
    if len(facts) > 1 and not text.startswith('let '):
        return '\n'.join([pad + facts[0]] + [pad + '× ' + fact for fact in facts[1:]]) + end
    return broken(pad, text, deeper)


def is_chain(term):
    """nested pairs, (a, (b, (c, d)))"""
    parts = split_at(term[1:-1], ',')
    return len(parts) == 2 and parts[1].startswith('(') and is_bracketed(parts[1]) and len(split_at(parts[1][1:-1], ',')) == 2


def wrapped_import(module, names):
    """a `use` line, over several"""
    lines, now = [], []
    for name in names:
        if now and len(f'use {module}.{{{", ".join(now + [name])}}}') > WIDE:
            lines.append(now)
            now = []
        now.append(name)
    return '\n'.join(f'use {module}.{{{", ".join(some)}}}' for some in lines + [now])


def broken(pad, text, deeper):
    """a term at the outermost space, of these at one behind a comma, of these at the last that leaves the line short enough"""
    ends = [(depth, text[place - 1] != ',', -place) for depth, place in spaces(text)
            if (10 if text[place - 1] == ',' else 30) < place <= WIDE - len(pad)]
    if not ends:
        return pad + text
    place = -min(ends)[2]
    return pad + text[:place] + '\n' + wrapped(deeper + text[place + 1:])


def main():
    for crate in sys.argv[1:] or ['*']:
        for name in ('Answers.antt', 'Invariants.antt', 'Proof.antt'):
            for path in sorted(glob.glob(f'crates/{crate}/proofs/*/**/{name}', recursive=True)):
                with open(path, encoding='utf8') as file:
                    text = file.read()
                new = '\n'.join(wrapped(line) for line in text.split('\n'))
                if new != text:
                    with open(path, 'w', encoding='utf8') as file:
                        file.write(new)
                    print(f'wrote {path}')


if __name__ == '__main__':
    main()
