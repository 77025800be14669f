#!/usr/bin/env python3
"""Brings this repository's own definitions and lemmas to snake case, as today's Rattle spells them. It was run once, at the top, directly
after the kit's port.py (docs/PORT.md), and stays so that the step can be done again on the commit before it.

    python3 tools/respell.py [--pages]

A word of specs/ that begins small and has a hump or a dash (`perPeriod`, `stall-grows`) gets underscores, wherever it stands in specs/, proofs/,
src/ and must-fail/ of any crate; a word that a file imports from the kit is left alone there. Where a lemma would fall together with another
definition it gets `_lem`. Comments keep their dashes. With --pages the words between backticks in README.md and docs/ are turned too.
"""
import collections
import glob
import os
import re
import sys

WORD = re.compile(r"(?<![A-Za-z0-9_'ℕ-])[A-Za-z_][A-Za-z0-9_'ℕ]*(?:-[A-Za-z0-9_'ℕ]+)*(?![A-Za-z0-9_'ℕ-])")
USE = re.compile(r"use ([^\s;{]+)\.\{([^}]*)\}")


def is_old(word):
    return word[0].islower() and ('-' in word or re.search('[a-z0-9][A-Z]', word) is not None)


def snake(word):
    return re.sub("(?<=[a-z0-9'])[A-Z]", lambda m: '_' + m.group(0).lower(), word).replace('-', '_')


def read(path):
    with open(path, encoding='utf-8') as f:
        return f.read()


def code_of(text):
    return '\n'.join('' if l.lstrip().startswith('--') else l for l in text.split('\n'))


def from_kit(text, crates):
    """The words that a file imports from the kit."""
    words = set()
    for m in USE.finditer(text):
        parts = m.group(1).split('.')
        if parts[0] == 'Rattle' and len(parts) > 1 and parts[1] in crates:
            continue
        words.update(i.split(' as ')[-1].strip() for i in m.group(2).split(','))
    return words


def names_of(crates):
    """Each old word of specs/ with its new one."""
    found, plain = set(), set()
    for path in sorted(glob.glob('crates/*/specs/**/*.antt', recursive=True)):
        text = code_of(read(path))
        kit = from_kit(text, crates)
        for line in text.split('\n'):
            m = re.match(r"(?:abbrev |unfoldable )?(?:pub )?([a-z][^\s(){}:,]*)(?= :| \()", line)
            if m and not is_old(m.group(1)):
                plain.add(m.group(1))
        found.update(w for w in WORD.findall(text) if is_old(w) and w not in kit)
    groups = collections.defaultdict(set)
    for word in found:
        groups[snake(word)].add(word)
    names = {}
    for new, words in groups.items():
        for word in words:
            together = '-' in word and (new in plain or any('-' not in w for w in words))
            names[word] = new + '_lem' if together else new
    return names


def turn(text, names, kit, comments):
    """The text with its words turned; in a comment only those with a hump, since English has dashes too."""
    def word(m):
        w = m.group(0)
        return w if w in kit else names.get(w, w)

    def hump(m):
        w = m.group(0)
        return w if '-' in w else names.get(w, w)

    out = []
    for line in text.split('\n'):
        if any(line.lstrip().startswith(c) for c in comments):
            out.append(WORD.sub(hump, line))
        else:
            out.append(WORD.sub(word, line))
    return '\n'.join(out)


def main():
    crates = {l.split(':')[0].split()[0] for l in read('crates.txt').split('\n') if l.strip() and not l.startswith('#')}
    names = names_of(crates)
    changed = 0
    for kind, comments in (('specs/**/*.antt', ['--']), ('proofs/**/*.antt', ['--']), ('src/**/*.rt', ['//']), ('must-fail/*.edit', ['#', 'file: '])):
        for path in sorted(glob.glob('crates/*/' + kind, recursive=True)):
            text = read(path)
            new = turn(text, names, from_kit(text, crates), comments)
            if new != text:
                with open(path, 'w', encoding='utf-8') as f:
                    f.write(new)
                changed += 1
    if '--pages' in sys.argv:
        for path in ['README.md'] + sorted(glob.glob('docs/*.md')):
            text = read(path)
            new = re.sub('`[^`\n]+`', lambda m: WORD.sub(lambda w: names.get(w.group(0), w.group(0)), m.group(0)), text)
            if new != text:
                with open(path, 'w', encoding='utf-8') as f:
                    f.write(new)
                changed += 1
    print('%d words, %d files' % (len(names), changed))
    for word, new in sorted(names.items()):
        if new.endswith('_lem'):
            print('  %s: %s' % (word, new))


if __name__ == '__main__':
    os.chdir(os.path.join(os.path.dirname(os.path.abspath(__file__)), '..'))
    main()
