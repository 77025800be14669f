#!/usr/bin/env python3
# Counts what docs/DESIGN-PASS.md counts by script: python3 tools/forms.py, at the top of the checkout. Parameters that travel together, by their
# names, and facts that three functions or more ask for, by the text of the parts of each `requires`.
import collections
import glob
import re

TOGETHER = {
    'head, lengths, budgets': ('head', 'lengths:', 'budgets:'),
    'the four lists of workload values': ('computing:', 'horizons:'),
    'a list of segments and a count': ('picks', 'count'),
    'a file and an offset': ('file: &', 'at: usize'),
    'a line and an index': ('line: &mut [u8]', 'at: usize'),
    'a place and an offset': ('place: &mut [u8]', 'at: usize'),
    'a body and an index': ('body: &[u8]', 'at: usize'),
}
counts = collections.Counter()
facts = collections.defaultdict(set)
for path in sorted(glob.glob('crates/*/src/**/*.rt', recursive=True)):
    text = open(path).read()
    for found in re.finditer(r'fn (\w+)(?:<[^>]*>)?\(([^{]*?)\)\s*(?:->|requires|ensures|\{|where)', text, re.S):
        for name, parts in TOGETHER.items():
            counts[name] += all(part in found.group(2) for part in parts)
    for found in re.finditer(r'(?:pub )?(?:const )?fn (\w+)(.*?)(?=\n\{|\) \{|\{\n)', text, re.S):
        for clause in re.finditer(r'requires\s+(?:\w+\s+)?\{(.*?)\}\s*(?=requires|ensures|$|\n)', found.group(2), re.S):
            for part in re.sub(r'\s+', ' ', clause.group(1)).split('×'):
                facts[re.sub(r'\.(now|old|entry)', '', part.strip().strip('()').strip())].add((path, found.group(1)))
for name in TOGETHER:
    print(counts[name], name)
repeated = sorted(((len(at), fact) for fact, at in facts.items() if len(at) >= 3), reverse=True)
print(len(repeated), 'facts in three contracts or more')
for number, fact in repeated:
    print('   ', number, fact)
