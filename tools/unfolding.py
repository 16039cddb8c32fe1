#!/usr/bin/env python3
"""Writes crates/hnsr_circuit/specs/Worked/All.antt: one name, `machine`, whose unfolding opens every definition, so
that a theorem by computation says `unfolding machine`.   usage: tools/unfolding.py   (from the repository's root)"""
import os, re
CRATES = ['hns_encoding', 'hnsr_body', 'hnsr_circuit']
LEFT_OUT = {'Laws', 'Worked', 'Examples', 'Utf8Form', 'Utf8Encode', 'Utf8CodePoints', 'Utf8Examples'}

def modules(crate, index='Lib', room=''):
    for m in [l.split()[-1] for l in open(f'crates/{crate}/specs/{index}.antt') if l.startswith('pub mod')]:
        if m in LEFT_OUT: continue
        if os.path.isdir(f'crates/{crate}/specs/{m}'): yield from modules(crate, m, f'{m}.')
        else: yield room + m

def names(crate, module):
    text = open(f'crates/{crate}/specs/{module.replace(".", "/")}.antt').read()
    return re.findall(r'^\s*unfoldable pub (\S+) :', text, re.M)

def main():
    uses, every, seen = [], [], {}
    for crate in CRATES:
        for m in modules(crate):
            ns = names(crate, m)
            for n in ns:
                if n in seen: raise SystemExit(f'{n} is declared in {seen[n]} and in {crate}.{m}')
                seen[n] = f'{crate}.{m}'
            if not ns: continue
            uses.append(f'use Rattle.{crate}.specs.{m}.{{' + ', '.join(ns) + '}')
            every += ns
    text = '''-- A run of the machine with every definition open. Made by tools/unfolding.py: not edited by hand.
use Rattle.std.specs.Prelude.{List}
use Rattle.hnsr_circuit.specs.World.{World, Outcome}
use Rattle.hnsr_circuit.specs.Call.{Start, Call}
''' + '\n'.join(uses) + '''

unfoldable pub machine : World → Start → List Call → List Outcome
unfolding ''' + ' '.join(every) + '''
machine w s calls = run w s calls
'''
    open('crates/hnsr_circuit/specs/Worked/All.antt', 'w').write(text)
    print(len(every), 'definitions')

main()
