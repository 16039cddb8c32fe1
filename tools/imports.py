#!/usr/bin/env python3
"""Imports that a hand-written .antt or .rt file does not use.

    imports.py REPO [CRATE ..]     lists them; none: every crate
    --write                        removes them
    --check                        exit status 1 if there is one

A name is used if it stands anywhere outside the `use` lines and the comments: alone, before a `.` or a `::`, in an
`unfolding` line, in a pattern; an operator `◌≡◌`, also by its parts; a trait by its methods. A `pub use`
and a `use M.*` are kept. This is a reader's guess: prove again after --write. (`rt tidy` drops those of .antt files, by
what the check says, in a crate that is proved; this asks .rt files and crates that are not.)
"""
import os, re, sys

USE = re.compile(r'^(?:ghost )?use (?P<path>[^\s{;]+?)(?:(?:\.|::)\{(?P<names>[^}]*)\})?'
                 r'(?: as (?P<alias>[^\s;]+))?;?\n', re.M)

# a trait's import is used where one of its methods is called
METHODS = {'Read': {'read', 'read_exact', 'read_to_end'}, 'Write': {'write', 'write_all', 'flush'},
           'TableRecord': {'is_used', 'unmarked', 'none'}, 'Question': {'holds'}, 'Numbered': {'id'},
           'Timed': {'due_at'}}

def stands(name, used):
    """a name, a method of a trait, or every part of an operator"""
    return (name in used or name in METHODS and not METHODS[name].isdisjoint(used)
            or '◌' in name and all(p in used for p in name.split('◌') if p))

def seen(text, rust):
    """every name that stands in the text"""
    text = re.sub(r'//[^\n]*' if rust else r'--[^\n]*', '', text)
    out = set()
    for t in re.findall(r'[^\s(){},;"⌜⌝⟦⟧]+', text):
        if t[0] == '.': continue                                           # a projection
        t = t.rstrip('.')
        out |= {t, t.split('.')[0]}
    if rust: out |= set(re.findall(r'\w+', text))
    return out

def idle(path):
    """the text without its idle imports, and their names"""
    s, rust = open(path).read(), path.endswith('.rt')
    lines = list(USE.finditer(s))
    rest, at = '', 0
    for m in lines: rest += s[at:m.start()]; at = m.end()
    used = seen(rest + s[at:], rust)
    for m in lines: used.add(re.split(r'\.|::', m['path'])[0])             # a `use` line may name what another brings
    gone, had, out, at = [], set(), '', 0
    for m in lines:
        out += s[at:m.start()]; at = m.end()
        if m['path'].endswith('*'): out += m[0]; continue
        if m['names'] is None:
            name = m['alias'] or re.split(r'\.|::', m['path'])[-1]
            keep = stands(name, used) and (m['path'], name) not in had
            had.add((m['path'], name))
            if keep: out += m[0]
            else: gone.append(name)
            continue
        names = [x.strip() for x in m['names'].split(',') if x.strip()]
        keep = []
        for x in names:
            name = re.split(r'\.|::', x.split(' as ')[-1].strip())[-1] or x
            if stands(name, used) and (m['path'], x) not in had: keep.append(x)
            else: gone.append(name)
            had.add((m['path'], x))
        if keep == names: out += m[0]
        elif keep: out += m[0].replace('{' + m['names'] + '}', '{' + ', '.join(keep) + '}')
    return out + s[at:], gone

def main():
    words = [w for w in sys.argv[1:] if not w.startswith('--')]
    if not words: raise SystemExit(__doc__)
    n = 0
    for crate in words[1:] or sorted(os.listdir(f'{words[0]}/crates')):
        for d, _, fs in sorted(os.walk(f'{words[0]}/crates/{crate}')):
            if '/out' in d: continue  # what rt made
            for f in sorted(fs):
                p = f'{d}/{f}'
                if not f.endswith(('.antt', '.rt')) or '/proofs/By' in p or 'GENERATED' in open(p).read(200): continue
                s, gone = idle(p)
                if not gone: continue
                n += len(gone); print(f'{os.path.relpath(p, words[0])}: {" ".join(gone)}')
                if '--write' in sys.argv: open(p, 'w').write(s)
    print(n, 'idle imports' + (', removed' if '--write' in sys.argv and n else ''))
    sys.exit(1 if n and '--check' in sys.argv else 0)

if __name__ == '__main__': main()
