#!/usr/bin/env python3
"""refusals.py: every place at which the check refuses a must-fail edit, where `rt must-fail` prints the first alone.

It applies the edit to a copy of the crate and of those below it, runs `rt check` there, and prints a line for each refusal: file and line, the text
of that line, and what the check says. So one sees whether a computed case refuses a wrong definition, or only a proof about it.

    tools/refusals.py CRATE/EDIT..    in the repository's root, as tools/refusals.py graph/least_way_of_pairs
"""
import os
import re
import shutil
import subprocess
import sys
import tempfile

ERROR = re.compile(r'^\./(\S+?):(\d+):\d+: (?:error|note): (.*)', re.M)  # a note, where a goal of a function is left


def needed(crate):
    """the crate's lines of crates.txt, with those of the crates below it"""
    lines = [line for line in open('crates.txt', encoding='utf8') if ':' in line.split('#')[0]]
    below = {line.split(':')[0].split()[0]: (line.split(':')[1].split(), line) for line in lines}
    return [(name, below[name][1]) for name in below[crate][0] + [crate]]


def apply(crate, edit):
    """the edit's pairs, each on what the earlier ones made; the file that it changes is the last named"""
    path, old = None, None
    for line in open(edit, encoding='utf8').read().split('\n'):
        key, _, text = line.partition(': ')
        if key == 'file':
            path = f'{crate}/{text.strip()}'
        elif key == 'old':
            old = text
        elif line.startswith('new:'):
            whole = open(path, encoding='utf8').read()
            if whole.count(old) != 1:
                sys.exit(f'{edit}: the old text stands {whole.count(old)} times in {path}: {old}')
            with open(path, 'w', encoding='utf8') as file:
                file.write(whole.replace(old, text))


def main():
    if not sys.argv[1:]:
        sys.exit(__doc__)
    for word in sys.argv[1:]:
        crate, name = word.split('/')
        edit = os.path.abspath(f'crates/{crate}/must-fail/{name.removesuffix(".edit")}.edit')
        with tempfile.TemporaryDirectory() as folder:
            for other, _ in needed(crate):
                shutil.copytree(f'crates/{other}', f'{folder}/crates/{other}', ignore=shutil.ignore_patterns('out', 'must-fail'))
            with open(f'{folder}/crates.txt', 'w', encoding='utf8') as file:
                file.writelines(line for _, line in needed(crate))
            subprocess.run(['git', 'init', '-q', folder], check=True)
            copy = f'{folder}/crates/{crate}'
            apply(copy, edit)
            check = subprocess.run(['rt', 'check'], cwd=copy, capture_output=True, text=True, errors='replace', check=False)
            print(f'{word}: {"refused" if check.returncode else "NOT REFUSED"}')
            for path, line, said in ERROR.findall(check.stdout + check.stderr):
                if re.search('(was|were) not checked|may simply be different|large solution', said) or not os.path.exists(f'{copy}/{path}'):
                    continue
                text = open(f'{copy}/{path}', encoding='utf8').read().split('\n')[int(line) - 1].strip()
                print(f'    {path}:{line}  {text[:60]}  | {said[:100]}')


if __name__ == '__main__':
    main()
