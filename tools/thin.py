#!/usr/bin/env python3
"""Drops the answers that the check finds by itself from the proofs of a crate.

    tools/thin.py CRATE [FN..]     in the repository's root; all functions if none is named

It takes out every answer of a goal that no other declaration of its file cites, lets `rt check` say which goals are then open, puts the answers of these
back, and goes on so until the crate is proved; then the same with what nothing cites any more, until all that is left is needed. A file that says
nothing then is removed. The crate has to be proved before. Run `rt tidy` behind it, which drops the imports, and compare the time before and after: what
the check finds by itself can take it longer than the answer did.
"""
import glob
import os
import re
import subprocess
import sys

NAMED = re.compile(r'^(?:(?:abbrev|unfoldable|pub) )*(\S+) :(?= |$)', re.M)
ANSWER = re.compile(r'(?:--[^\n]*\n)*(?:abbrev )?pub \S+ : goal\.\S+')
OPEN = re.compile(r'`(\S+?)` of (?:\./)?(proofs/\S+/Answers\.antt) must prove')
WRONG = re.compile(r'(?:\./)?(proofs/\S+/Answers\.antt):\d+:\d+: error: `(\S+?)`')


def read(path):
    with open(path, encoding='utf8') as file:
        return file.read()


def cites(text, name):
    return re.search(rf'(?<![\w.«\'-]){re.escape(name)}(?![\w\'-])', text) is not None


class File:
    """An Answers.antt as paragraphs, and which of them are out."""

    def __init__(self, path):
        self.path, self.was = path, read(path)
        self.pars = re.split(r'\n\n+', self.was.strip('\n'))
        self.out, self.needed = set(), set()

    def name(self, place):
        match = NAMED.search(self.pars[place])
        return match.group(1) if match else None

    def take_out(self):
        """takes out the answers, and whatever else, that nothing cites; how many"""
        found = set()
        for place, par in enumerate(self.pars):
            name = self.name(place)
            if place in self.out | self.needed or not name or place == 0 or not (ANSWER.match(par) or self.out):
                continue
            if not any(cites(other, name) for at, other in enumerate(self.pars) if at != place and at not in self.out):
                found.add(place)
        self.out |= found
        return len(found)

    def put_back(self, names):
        """puts back the answers of these names, and what they cite; how many"""
        back = {place for place in self.out if self.name(place) in names}
        todo = list(back)
        self.needed |= back
        while todo:
            par = self.pars[todo.pop()]
            cited = {place for place in self.out - back if cites(par, self.name(place))}
            back |= cited
            todo += cited
        self.out -= back
        return len(back)

    def write(self):
        kept = [par for place, par in enumerate(self.pars) if place not in self.out]
        if self.out and not any(NAMED.search(par) for par in kept):
            if os.path.exists(self.path):
                os.remove(self.path)
        else:
            with open(self.path, 'w', encoding='utf8') as file:
                file.write('\n\n'.join(kept) + '\n')


def check(crate):
    """whether the crate is proved, and the answers that it lacks: file -> names"""
    done = subprocess.run(['rt', 'check'], cwd=f'crates/{crate}', stdout=subprocess.PIPE, stderr=subprocess.STDOUT, text=True, check=False)
    lacks = {}
    for name, path in OPEN.findall(done.stdout) + [(name, path) for path, name in WRONG.findall(done.stdout)]:
        lacks.setdefault(f'crates/{crate}/{path}', set()).add(name)
    return done.returncode == 0, lacks


def settle(crate, files):
    """writes the files and puts back what is missed, until the crate is proved; False if it is not to be had so"""
    while True:
        for file in files:
            file.write()
        is_proved, lacks = check(crate)
        if is_proved:
            return True
        back = sum(file.put_back(lacks.get(file.path, ())) for file in files)
        print(f'{crate}: {back} put back', flush=True)
        if not back:
            return False


def main():
    if len(sys.argv) < 2:
        sys.exit(__doc__)
    crate, wanted = sys.argv[1], sys.argv[2:]
    paths = sorted(glob.glob(f'crates/{crate}/proofs/*/**/Answers.antt', recursive=True))
    files = [File(path) for path in paths if not wanted or os.path.basename(os.path.dirname(path)) in wanted]
    if not check(crate)[0]:
        sys.exit(f'{crate} is not proved: nothing is changed')
    while sum([file.take_out() for file in files]):
        if not settle(crate, files):
            for file in files:
                file.out = set()
                file.write()
            sys.exit(f'{crate}: the check does not say what it misses: the files are as they were')
    print(f'{crate}: {sum(len(file.out) for file in files)} declarations dropped')


main()
