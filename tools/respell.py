#!/usr/bin/env python3
"""Respells the crates' own definitions, lemmas and record fields: words in snake case, types in camel case.

    python3 tools/respell.py [FOLDER]

Run once, at the top of a checkout whose specs/ and proofs/ still join words by dashes. It renames what specs/*.antt and proofs/*.antt declare,
the bound variables of specs/ and the lemmas inside proofs/F/, in all .antt and .rt files, comments and strings too, and in the code spans of
README.md and docs/*.md. Names of the library, names that Rattle makes of the source and functions of src/ keep their spelling, as do inputs,
outputs and edits, which it does not read. It prints each name with its new one. It stops where two names that it respells would fall together
(bound variables are not compared with one another), and says where one falls together with a name that stands already.
"""
import glob
import re
import sys

WORD = r"[A-Za-z][A-Za-z0-9_'·-]*"
TOKEN = re.compile(r"(?<![A-Za-z0-9_'·-])(" + WORD + r")(?![A-Za-z0-9_'·-])")
DECLARED = re.compile(r"^\s*(?:(?:abbrev|unfoldable|pub|data|record)\s+)*(" + WORD + r")(?:\s+[({].*)?\s*:(?:\s|$)")


def respelled(name):
    parts = name.split('-')
    if name[0].isupper():
        return ''.join(p[:1].upper() + p[1:] for p in parts)
    return '_'.join(parts)


def main():
    top = sys.argv[1] if len(sys.argv) > 1 else '.'
    specs = sorted(glob.glob(top + '/crates/*/specs/*.antt'))
    lemmas = sorted(glob.glob(top + '/crates/*/proofs/*.antt'))
    names, variables, foreign, taken = set(), set(), set(), set()
    for f in specs + lemmas:
        for line in open(f):
            use = re.match(r"\s*use (\S+?)\.?\{(.*)\}", line)
            own = use and re.match(r"Rattle\.(console|effort|job|limits|listing|machines|search)\.", use.group(1))
            if use and not own:
                foreign.update(TOKEN.findall(use.group(2)))
            if line.lstrip().startswith('--') or line.lstrip().startswith('use ') or re.match(r'(pub )?mod ', line):
                continue
            declared = DECLARED.match(line)
            if declared and '-' in declared.group(1):
                names.add(declared.group(1))
            taken.update(TOKEN.findall(line))
    for f in specs:
        for line in open(f):
            if not line.lstrip().startswith('--') and not line.lstrip().startswith('use '):
                variables.update(t for t in TOKEN.findall(line) if '-' in t and t not in names)
    for f in glob.glob(top + '/crates/*/proofs/*/**/*.antt', recursive=True):
        text = open(f).read()
        for m in re.finditer(r"^(" + WORD + r") :(?! goal\.| need\.| needs\.)", text, re.M):
            if '-' in m.group(1) and not re.search(r"\b(goal|Goals|Given)\." + re.escape(m.group(1)), text):
                names.add(m.group(1))
    names -= foreign
    variables -= names | foreign
    new = {v: respelled(v) for v in variables}
    for n in sorted(names):
        r = respelled(n)
        if r in new.values():
            print(f'{n}: another name is respelled as {r} too', file=sys.stderr)
            sys.exit(1)
        new[n] = r
    for n in sorted(new):
        if new[n] in taken:
            print(f'{n}: look whether {new[n]}, which stands here already, is another name in the same scope', file=sys.stderr)
    turned = specs + glob.glob(top + '/crates/*/proofs/**/*.antt', recursive=True) + glob.glob(top + '/crates/*/src/**/*.rt', recursive=True)
    for f in turned:
        text = open(f).read()
        out = TOKEN.sub(lambda m: new.get(m.group(1), m.group(1)), text)
        if out != text:
            open(f, 'w').write(out)
    for f in glob.glob(top + '/docs/*.md') + [top + '/README.md']:
        text = open(f).read()
        out = re.sub(r"`[^`\n]*`", lambda q: TOKEN.sub(lambda m: new.get(m.group(1), m.group(1)), q.group(0)), text)
        if out != text:
            open(f, 'w').write(out)
    for n in sorted(new):
        print(n, new[n])


main()
