#!/usr/bin/env python3
"""pages.py: are the pages true of the tree? Every file that README and docs/ name or link must be
there, every edit must stand in the crate that the page names, and of each row of the audit's tables
every name must stand in one of the files beside it. Every rule of docs/RULES.md must have a row in
docs/AUDIT.md, without an empty cell, and every rule or decision that a page, a specification, the
code or a test cites must be there. Where a page says how much has to be believed, and where a
specs/Lib.antt says that nobody has to believe a file, tools/believed.py must find the same;
docs/ARCHITECTURE.md says what crates rest on as crates.txt does. And the repository stands alone:
no file, no name of one and no newer commit's message leans on papers that do not lie in it. Run it
in the repository's root; it exits with 1 if something is stale. The gate runs it."""
import glob
import os
import re
import subprocess
import sys

import believed

# folders below crates/ that a page names without `crates/`
CRATE_PATH = re.compile(r'^([a-z_]+)/(specs|proofs|src|must-fail|stdout)(/.*)?$')
NAME = re.compile(r'^[A-Za-z][\w\'→-]*$')
# What would lean on papers that do not lie here: a demand, an issue or a paper by its number, a
# request by its letter, those who asked. docs/RULES.md is cited instead, by rule; literature by
# author and title. Ordinary words stay free ("on demand", "a paper" in a title). No pattern matches
# itself.
OUTSIDE = re.compile('|'.join([
    r'(?i:demands?[ _-]?\d)',
    r'[Dd]emands?(?=[A-Z_]\w)',
    r'(?<=[a-z_])[Dd]emands?\b',
    r'\b[D]emands?\b',
    r'(?i:\b(?:documents?|papers?)[ _-]?\d)',
    r'(?i:\bsource[ _-]document)',
    r'(?i:\b(?:the|this|that|both|our|these) papers?\b)',
    r'(?i:\brequests?[ _-]?(?:\([a-n]\)|[b-n]\b|a\)))',
    r'(?i:\bchange[ _-]request)',
    r'(?i:\bcustom[e]rs?\b)',
    r'(?i:\bissues?[ _-]?(?:#|no\.? ?)?\d)',
    r'\bREADING[S]\b',
    r'\b\d\d-(?:demand|scope|change|rattle)',
    r'\.\./shared[/]',
]))
# Messages are held to it from this time on: landed ones stay as they are. A clone that is not deep
# has only newer ones.
SINCE = '2026-11-27T15:21:00+00:00'
crates = {os.path.basename(os.path.dirname(p)) for p in glob.glob('crates/*/src')}
edits = {os.path.splitext(os.path.basename(p))[0]: p for p in glob.glob('crates/*/must-fail/*.edit')}


def files_of(token):
    """the files that a token names, [] if it names none that is there, None if it is no path"""
    match = CRATE_PATH.match(token)
    if match and match.group(1) in crates | {'figures', 'lending', 'lines', 'foreign', 'testbed', 'zorpedi'}:
        base = 'crates/' + token
    elif re.match(r'^(docs|examples|include|rust|bench|tools|crates)(/|$)|^(crates\.txt|\.ci/run|README\.md)$', token):
        base = token
    else:
        return None
    for path in (base, base + '.antt', base + '.rt'):
        if os.path.isdir(path):
            return [p for p in glob.glob(path + '/**', recursive=True) if os.path.isfile(p)]
        if os.path.isfile(path):
            return [path]
    return []


def text_of(paths):
    out = []
    for path in paths:
        out.append(os.path.splitext(os.path.basename(path))[0])
        with open(path, encoding='utf8', errors='replace') as file:
            out.append(file.read())
    return '\n'.join(out)


def stale(page):
    with open(page, encoding='utf8') as file:
        lines = file.read().split('\n')
    # what a page quotes of a specification stands there word by word
    for quoted in re.finditer(r'^```antt\n(.*?)^```$', '\n'.join(lines), re.M | re.S):
        if quoted.group(1) not in text_of(glob.glob('crates/*/specs/*.antt')):
            yield '\n'.join(lines)[:quoted.start()].count('\n') + 1, 'no specification has this'
    fenced = False
    for number, line in enumerate(lines, 1):
        fenced ^= line.startswith('```')
        if not fenced and not line.startswith('```') and line.count('`') % 2:
            yield number, 'a name that goes over the end of its line'
        for link in re.findall(r'\]\(([^)#\s]+)', line):
            if '://' not in link and not os.path.exists(os.path.join(os.path.dirname(page), link)):
                yield number, f'no file {link}'
        tokens = re.findall(r'`([^`]+)`', line)
        for token in tokens:
            if files_of(token) == [] and not token.startswith(('target', 'crates/CRATE', 'crates/NAME')):
                yield number, f'no file `{token}`'
            match = re.match(r'^([a-z_]+)/([a-z_0-9]+)$', token)
            if match and match.group(1) in crates and files_of(token) is None:
                if not os.path.exists(f'crates/{match.group(1)}/must-fail/{match.group(2)}.edit'):
                    yield number, f'no edit `{token}`'
        cells = [c.strip() for c in re.split(r'(?<!\\)\|', line)[1:-1]]
        if len(cells) == 3:
            named = [files_of(t) for t in re.findall(r'`([^`]+)`', cells[2])]
            if named and all(n is not None for n in named):
                text = text_of([p for n in named for p in n])
                words = set(re.split(r'[^\w\'→-]+', text))
                for token in re.findall(r'`([^`]+)`', cells[1]):
                    if NAME.match(token) and token not in words and token not in crates:
                        yield number, f'`{token}` does not stand in {cells[2]}'


def unheld():
    """what is wrong between the rules and their audit"""
    with open('docs/RULES.md', encoding='utf8') as file:
        rules = re.findall(r'^(\d+\.\d+)\. ', file.read(), re.M)
    with open('docs/DECISIONS.md', encoding='utf8') as file:
        decisions = re.findall(r'^(\d+)\. ', file.read(), re.M)
    for decision in sorted({one for one in decisions if decisions.count(one) > 1}):
        yield 'docs/DECISIONS.md', 0, f'two decisions have the number {decision}'
    held = set()
    with open('docs/AUDIT.md', encoding='utf8') as file:
        for number, line in enumerate(file, 1):
            match = re.match(r'\| (\d+\.\d+)(?:, [^|]*)? \|(.*)\|(.*)\|$', line)
            if match:
                held.add(match.group(1))
                if match.group(1) not in rules:
                    yield 'docs/AUDIT.md', number, f'no rule {match.group(1)}'
                if not (match.group(2).strip() and match.group(3).strip()):
                    yield 'docs/AUDIT.md', number, 'an empty cell'
    for rule in rules:
        if rule not in held:
            yield 'docs/RULES.md', 0, f'no row of the audit for rule {rule}'
    looked_at = re.compile(r'README\.md|docs/.*\.md|crates/.*\.(antt|rt)|rust/(src|tests)/.*\.rs|(include|examples|bench)/.*')
    for path in filter(looked_at.fullmatch, files_here()):
        with open(path, encoding='utf8', errors='replace') as file:
            for number, line in enumerate(file, 1):
                for cited in re.findall(r'\brules? ((?:\d+\.\d+(?:, | and | to |, and )?)+)', line):
                    for rule in re.findall(r'\d+\.\d+', cited):
                        if rule not in rules:
                            yield path, number, f'no rule {rule}'
                # the landings tell of decisions that others have replaced since
                for cited in re.findall(r'\bdecisions? ((?:\d+(?:, | and | to |, and )?)+)', line):
                    for decision in re.findall(r'\d+', cited):
                        if decision not in decisions and path != 'docs/LANDINGS.md':
                            yield path, number, f'no decision {decision}'


def misbelieved():
    """what the pages and the specifications say of what must be believed, where it is not so"""
    reading = believed.Reading()
    believed.counted(reading)
    count, lines = reading.total()
    for page in ['README.md'] + sorted(glob.glob('docs/*.md')):
        with open(page, encoding='utf8') as file:
            for number, line in enumerate(file, 1):
                for said in re.findall(r'([\d,]+) definitions of ([\d,]+) lines', line):
                    if [int(n.replace(',', '')) for n in said] != [count, lines]:
                        yield page, number, f'tools/believed.py counts {count} definitions of {lines:,} lines'
    needed = {(crate, name) for crate, name, _ in reading.reached}
    for path in sorted(glob.glob('crates/*/specs/Lib.antt')):
        crate, comment = path.split('/')[1], ''
        with open(path, encoding='utf8') as file:
            for number, line in enumerate(file, 1):
                match = re.match(r'pub mod (\S+)', line)
                if match:
                    if ('obody has to believe this file' in comment) == ((crate, match.group(1)) in needed):
                        yield path, number, f'whether {match.group(1)} has to be believed: tools/believed.py finds otherwise'
                    comment = ''
                else:
                    comment += line


def misplaced():
    """where docs/ARCHITECTURE.md says otherwise than crates.txt what a crate rests on, all that lies below it"""
    below, said = {}, {}
    with open('crates.txt', encoding='utf8') as file:
        for line in file:
            name, colon, rest = line.partition(':')
            if colon and not line.startswith('#'):
                below[name.split()[0]] = set(rest.split())
    with open('docs/ARCHITECTURE.md', encoding='utf8') as file:
        for number, line in enumerate(file, 1):
            match = re.match(r'\| `(\w+)` \|.*\| ([\w ]*)\|$', line)
            if match and match.group(1) in below:
                near = set(match.group(2).split())
                said[match.group(1)] = number, near.union(*(below.get(name, set()) for name in near))
    for name in below:
        number, rests = said.get(name, (0, None))
        if rests != below[name]:
            yield 'docs/ARCHITECTURE.md', number, f'crates.txt has otherwise what {name} rests on'


def files_here():
    """every file but what was made"""
    for folder, folders, names in os.walk('.'):
        folders[:] = sorted(set(folders) - {'.git', 'target', 'out', '__pycache__'})
        yield from (os.path.normpath(os.path.join(folder, name)) for name in sorted(names))


def leaning():
    """where a file, its name or a commit's message cites what does not lie in the repository"""
    texts = []
    for path in files_here():
        with open(path, encoding='utf8', errors='replace') as file:
            texts.append((path, f'{path}\n{file.read()}'))  # line 0 is the name
    if os.path.exists('.git'):
        command = ['git', '-c', 'safe.directory=*', 'log', f'--since={SINCE}', '--format=%x00%h%n%B']
        log = subprocess.run(command, capture_output=True, check=False)
        if log.returncode:
            why = log.stderr.decode().strip()
            print(f'tools/pages.py: no message was looked at: {why}', file=sys.stderr)
        for message in log.stdout.decode('utf8', 'replace').split('\0')[1:]:
            texts.append(('message of commit ' + message.split('\n')[0], message))
    for path, text in texts:
        for number, line in enumerate(text.split('\n')):
            match = OUTSIDE.search(line)
            if match:
                yield path, number, f'cites what does not lie here: `{match.group()}`'


def main():
    found = 0
    for path, number, what in list(unheld()) + list(misbelieved()) + list(misplaced()) + list(leaning()):
        found += 1
        print(f'{path}:{number}: {what}')
    # these two pages set today's names beside those that are gone
    for page in ['README.md'] + sorted(set(glob.glob('docs/*.md')) - {'docs/PORT.md', 'docs/DESIGN-PASS.md'}):
        for number, what in stale(page):
            found += 1
            print(f'{page}:{number}: {what}')
    if found:
        sys.exit(f'{found} stale places')


main()
