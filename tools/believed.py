#!/usr/bin/env python3
"""believed.py: the definitions of specs/ that a reader has to believe, counted.

These are the ones that the contracts of the public calls (those in the headings of docs/PROMISES.md) and the statements of the theorems named below
cite, and all that those cite in turn. They are printed in the order of reading (crates.txt, then specs/Lib.antt, then the place in the file), each
with its number of lines: signature and body. Not counted are comments, blank lines, imports, the heads of modules and `unfolding`, which says nothing
about meaning; nor the words of the kit's library (crates/lists/specs/Lists.antt begins with a glossary of them), nor the types that the code declares,
which are named at the end.

The second list is what else stands in specs/: steps of the code, which inner contracts cite, and worked cases. Nobody has to believe these.

    tools/believed.py [--totals]      in the repository's root; --totals leaves out the single definitions
"""
import glob
import os
import re
import sys

# what is counted: the crates of public calls, and theorems, by what they make good
GROUPS = [
    ('the calls on a map: refusals, results, histories', 'map search nearby summary reckon step lent_opening batch_opening', [
        'empty_refusals', 'search_refusals', 'within_refusals', 'nearest_refusals', 'summary_refusals', 'reckon_refusals', 'update_refusals', 'batch_refusals',
        'search_correct', 'within_correct', 'nearest_correct', 'summary_correct', 'reckon_correct', 'update_correct', 'update_tables', 'emptied_is_empty', 'batch_correct', 'batch_most',
        'histories_agree']),
    ('lines', 'notice report', ['reader_refusals', 'writer_refusals', 'frame_is', 'line_is', 'one_line', 'round_trip', 'report_refusals', 'line_injective']),
    ('sentences', 'sentences', ['reads_written', 'written_reads', 'sentence_injective', 'sentence_one_line']),
    ('the stream', 'stream', ['pieces_alike', 'rest_unread', 'turn_uses', 'turn_all', 'pieces_told', 'narration_tells', 'transcript_tells', 'answers_same', 'garbled_same', 'events_same']),
    ('the programs', 'feeding', []),
    ('reports on files', 'surveys', ['run_first']),
    ('the calls for C', 'c_maps c_updates c_streams c_sentences', ['updated_words', 'batched_words', 'write_refusals', 'read_refusals', 'numbers_return']),
    ('the table of cases', '', ['cases_hold']),
    ('stale pairs, in the midst of dropping', '', ['done_joined']),
    ('how far one notice moves the chain', '', ['opening_moves', 'linking_moves', 'map_moves', 'call_moves', 'histories_move']),
    ('the greatest figures', '', ['greatest_figures']),
]

USE = re.compile(r'^\s*(?:ghost )?use (\S+?)(?:\.\{(.*)\}| as (\S+));?$')
SPECS = re.compile(r'^Rattle\.(\w+)\.specs\.(.+)$')
START = re.compile(r'^( *)(?:(?:abbrev|unfoldable|pub) )*(?:(record|data) ([^\s{]+)|([^\s:(){}]+) :(?= |$))')
KEY = re.compile(r'(?:(?<=[{;])|^) *[^\s(){};,]+ =(?= )', re.M)  # of a record
PROJECTION = re.compile(r'(?<![^\s(){}])\.[^\s(){};,.]+')  # of a term in brackets; that of a name is cut off it
TOKEN = re.compile(r'[^\s(){};,⟨⟩]+')


def read(path):
    with open(path, encoding='utf8') as file:
        return file.read()


class File:
    """The imports of a file, and its definitions in order, each with its text, its signature and its number of lines."""

    def __init__(self, path):
        self.path = path
        self.imported = {}  # local name -> (crate, file, name)
        self.modules = {}  # alias of a whole file -> (crate, file)
        self.laws = set()  # names imported from proofs
        self.texts = {}
        self.statements = {}  # signatures, with the heads of the modules around them
        self.lines = {}
        self.owner = {}  # a constructor of `data` -> its type
        name, kind, indent, in_statement = None, None, 0, False
        module, inside = '', 0  # the heads of the modules around, and how far their definitions are indented
        for line in read(path).split('\n'):
            line = re.sub(r'(^|\s)(--|//).*$', '', line).rstrip()
            use = USE.match(line)
            if use:
                self.note_import(*use.groups())
            if use or not line:
                continue
            depth = len(line) - len(line.lstrip())
            if depth == 0:
                module, inside = '', 0
            if line.lstrip().startswith('module '):
                module, inside, name = module + line + '\n', depth + 2, None
                continue
            start = START.match(line) if depth == inside else None
            if start:
                indent, kind, name = depth, start.group(2), start.group(3) or start.group(4)
                self.texts[name], self.statements[name], self.lines[name] = '', module, 0
                in_statement = True
            elif depth <= indent:
                in_statement = False
            if name:
                self.add(name, line, in_statement)
            if kind == 'data' and depth > indent and ':' in line:
                self.owner.update((word, name) for word in line.split(':')[0].replace('pub ', '').split())

    def add(self, name, line, in_statement):
        if not line.lstrip().startswith('unfolding '):
            self.texts[name] += line + '\n'
            self.lines[name] += 1
        if in_statement:
            self.statements[name] += line + '\n'

    def note_import(self, where, names, alias):
        given = [entry.strip().partition(' as ') for entry in (names or '').split(',') if entry.strip()]
        match = SPECS.match(where)
        if match and alias:
            self.modules[alias] = match.groups()
        for name, _, local in given:
            if match:
                self.imported[local or name] = match.groups() + (name,)
            elif where.startswith('Rattle.') and not where.startswith('Rattle.std.'):
                self.laws.add(local or name)

    def cited(self, text):
        """what the names of a text stand for: (crate, file, name); a name of this file has None as crate and file"""
        for token in TOKEN.findall(PROJECTION.sub(' ', KEY.sub(' ', text))):
            head, dot, rest = token.partition('.')
            if dot and head in self.modules:
                yield self.modules[head] + (rest,)
                continue
            token = head or token
            if token in self.imported:
                yield self.imported[token]
            elif token in self.texts or token in self.owner:
                yield None, None, self.owner.get(token, token)


def contract_of(text, function):
    """the signature and the contract of a function of the code"""
    match = re.search(rf'^pub (?:extern "C" )?fn {function}\b.*?(?=^\{{)', text, re.M | re.S)
    return re.sub(r'//.*', '', match.group(0)) if match else None


def crate_for_c(function):
    """the crate that exports a function for C"""
    for path in sorted(glob.glob('crates/c_*/src/**/*.rt', recursive=True)):
        if contract_of(read(path), function):
            return path.split('/')[1]
    sys.exit(f'no crate exports {function}')


def public_calls():
    """(crate, function) of the headings of the promises"""
    for heading in re.findall(r'^## .*', read('docs/PROMISES.md'), re.M):
        for name in re.findall(r'`([a-z_:]+)`', heading):
            if '::' in name:
                yield tuple(name.split('::'))
            elif name.startswith('zorpedi_'):
                yield crate_for_c(name), name


class Reading:
    """All specifications in the order of reading, and what is reached in them."""

    def __init__(self):
        self.files = {}  # (crate, file) -> File, in order
        for crate in re.findall(r'^(\w+)(?: [^:#]*)?:', read('crates.txt'), re.M):
            lib = f'crates/{crate}/specs/Lib.antt'
            if os.path.exists(lib):
                for name in re.findall(r'^pub mod (\S+)', read(lib), re.M):
                    self.files[crate, name] = File(f'crates/{crate}/specs/{name}.antt')
        self.reached = set()  # (crate, file, name)
        self.declared = set()  # (crate, type of the code)
        self.beside = {}  # definitions that stand beside a theorem, for its statement: (path, name) -> lines

    def total(self):
        lines = [self.files[crate, inner].lines[name] for crate, inner, name in self.reached] + list(self.beside.values())
        return len(lines), sum(lines)

    def reach(self, cited):
        """follows what is cited, and what that cites"""
        todo = list(cited)
        while todo:
            crate, inner, name = todo.pop()
            if inner and inner.startswith('declared.'):
                self.declared.add((crate, inner.split('.')[1]))
            file = self.files.get((crate, inner))
            if not file:
                continue
            name = file.owner.get(name, name)
            if name not in file.texts or (crate, inner, name) in self.reached:
                continue
            self.reached.add((crate, inner, name))
            todo += [(crate, inner, other) if where is None else (where, at, other) for where, at, other in file.cited(file.texts[name])]

    def reach_contract(self, crate, function):
        for path in sorted(glob.glob(f'crates/{crate}/src/**/*.rt', recursive=True)):
            contract = contract_of(read(path), function)
            if contract:
                self.reach(File(path).cited(contract))
                return
        sys.exit(f'no function {crate}::{function}')

    def reach_theorem(self, theorem):
        for path in sorted(glob.glob('crates/*/proofs/*.antt')):
            if re.search(rf'^ *pub {re.escape(theorem)} :', read(path), re.M):
                self.reach_statement(File(path), theorem)
                return
        sys.exit(f'no theorem {theorem}')

    def reach_statement(self, file, theorem):
        texts, seen = [file.statements[theorem]], {theorem}
        while texts:
            text = texts.pop()
            for law in file.laws.intersection(TOKEN.findall(text)):
                sys.exit(f'{file.path}: the statement of {theorem} cites {law} of a proof')
            self.reach(file.cited(text))
            for where, _, name in file.cited(text):
                if where is None and name not in seen:
                    seen.add(name)
                    self.beside[file.path, name] = file.lines[name]
                    texts.append(file.texts[name])

    def reach_group(self, crates, theorems):
        for crate, function in public_calls():
            if crate in crates:
                self.reach_contract(crate, function)
        for theorem in theorems:
            self.reach_theorem(theorem)

    def show(self, is_reached, is_brief):
        """prints the definitions that are reached, or those that are not; answers how many, and their lines"""
        count, total = 0, 0
        for (crate, inner), file in self.files.items():
            names = [name for name in file.texts if ((crate, inner, name) in self.reached) == is_reached]
            lines = sum(file.lines[name] for name in names)
            if names:
                print(f'{lines:6}  {file.path}')
            for name in [] if is_brief else names:
                print(f'{file.lines[name]:14}  {name}')
            count, total = count + len(names), total + lines
        return count, total


def counted(reading):
    """reaches all that must be believed; answers (title, definitions, lines) of each group, each beside what the groups before it have"""
    strange = {crate for crate, _ in public_calls()} - {crate for _, crates, _ in GROUPS for crate in crates.split()}
    if strange:
        sys.exit(f'no group for the calls of {", ".join(sorted(strange))}')
    out = []
    for title, crates, theorems in GROUPS:
        count, lines = reading.total()
        reading.reach_group(crates.split(), theorems)
        out.append((title, reading.total()[0] - count, reading.total()[1] - lines))
    return out


def main():
    is_brief = '--totals' in sys.argv
    reading = Reading()
    groups = counted(reading)
    print('To be believed, in the order of reading (lines, file or definition):\n')
    reading.show(True, is_brief)
    for (path, name), lines in reading.beside.items():
        print(f'{lines:6}  {path}' + ('' if is_brief else f'\n{lines:14}  {name}'))
    types = ', '.join(f'{crate}::{name}' for crate, name in sorted(reading.declared))
    print(f'\nTypes of the code that these name: {types}')
    print('\nAlso in specs/, and nobody has to believe it (steps of the code, worked cases):\n')
    others, rest = reading.show(False, is_brief)
    print()
    for title, count, lines in groups:
        print(f'{title}: {count} definitions of {lines} lines')
    count, lines = reading.total()
    print(f'to be believed: {count} definitions of {lines} lines; nobody has to believe: {others} of {rest}')


if __name__ == '__main__':
    main()
