#!/usr/bin/env python3
"""Of the older kit, and runs with that alone. Today's check names what is bound itself (`c.args`, `c.scan.ensures`),
and closes by its own search what it can; the other goals are answered in Answers.antt.

Names for what is bound on the way to a need, in place of `c .before .before ..`; and the needs that a search closes.

    places.py REPO CRATE [FUNCTION ..]   FUNCTION as m::f; none: every function of CRATE whose Proof.antt has `mod At`
    --check                              writes nothing, lists what is stale, exit status 1 if anything is
    --generated DIR                      what `rt dev CRATE --generated DIR` wrote lately; else it is run, where a
                                         function is one that the borrow checker covers

Reads proofs/m/f/Proof.antt and writes proofs/m/f/Proof/At.antt:
  - for each need that is named there as `at.NEED`, a record of what is bound before it: `start` (`args`, `good`,
    `pre`), and each call, test and loop by its own name, as in `let here = at.returns c in .. here .plan .ensures ..`.
  - where Proof.antt ends in `tie.close (at.spec a b)`, in a function with no loop: the needs other than a and b, closed
    by `search needs`.
Run it again after derive.py, and after a change to which needs Proof.antt names. Nothing here is trusted.
"""
import os, re, shutil, subprocess, sys, tempfile
from antt import close_at, formatted, logical, read, toks, write

# a lent argument, a known length: nobody names these
QUIET = re.compile(r'(-arg\d*|^(slice|shared-slice|row)-known\d*)$')

class Plan:
    """the places, the needs and the readings of a function, from its Lts and its Tie"""
    def __init__(self, lts, tie):
        self.up, self.own, self.needs, cur = {}, {}, {}, None
        for ind, t in logical(open(lts).read()):
            if t[:2] == ['pub', 'record']:
                cur = (self.own if t[2].endswith('·own') else self.up).setdefault(t[2], [])
                at = ind
            elif cur is not None and ind == at + 2 and t[0] == 'pub' and t[2] == ':': cur.append((t[1], t[3]))
            else: cur = None
            if t[0].startswith('Need-') and t[1:4] == ['=', '(', 'c']: self.needs[t[0][5:]] = t[5]
        self.order, self.loops = [], []
        for _, t in read(tie):
            if t[:3] == ['abbrev', 'pub', 'Start']:
                self.loops = [(t[i + 1], t[i + 3]) for i, x in enumerate(t) if x == '(']
            elif t[:2] == ['Start', '=']:
                i = next(i for i, x in enumerate(t) if x.endswith('.Lts.Start'))
                self.lts, self.start = t[i][:-len('.Start')], t[i + 1:]
            elif t[:3] == ['pub', 'spec', ':']:
                self.order = [x for x in t if x.startswith(('Need-', 'InvT-', 'MeasureT-'))]

    def chain(self, need):
        """the places from the need's `c` upwards"""
        p = [self.needs[need]]
        while p[-1] != 'Start': p.append(dict(self.up[p[-1]])['before'])
        return p

    def names(self, need):
        """what is bound before the need, the first first: (its name, its field, its type, how many places up)"""
        out = []
        for k, p in enumerate(self.chain(need)[:-1]):
            for f, ty in self.up[p]:
                if f != 'before' and not QUIET.search(f): out.append(('the-start' if f == 'start' else f, f, ty, k))
        return out[::-1]

def asks(proof):
    """whether a proof has an At; the needs whose places it names; those that it hands to `at.spec`, as (name, need)"""
    m = re.search(r'\bat\.spec\b([^()]*)', proof)
    answers = dict(re.findall(r'^([\w-]+) : tie\.Need-([\w-]+)', proof, re.M))
    hard = [(n, answers[n]) for n in m.group(1).split() if n in answers] if m else None
    return re.search(r'^mod At$', proof, re.M), list(dict.fromkeys(re.findall(r'\bat\.([\w-]+)', proof))), hard

def up(k): return ['c'] + ['.before'] * k

def record(plan, tie, need, start, ind):
    """the record of a need's places"""
    cap, inv, here = need[0].upper() + need[1:], [n for n, _ in plan.loops], plan.chain(need)
    c = ['(', 'c', ':', f'{tie}.{here[0]}'] + inv + [')']
    types, values = [('start', [f'{tie}.Start'] + inv)], [('start', up(len(here) - 1))]
    for n, f, ty, k in plan.names(need):
        types.append((n, [f'{plan.lts}.{ty}'] + start + ['('] + up(k + 1) + [')']))
        values.append((n, up(k) + ['.' + f]))
    out = [(ind, ['pub', 'record', cap] + c + toks(': Type 0 where'))]
    out += [(ind + 2, ['pub', n, ':'] + ty) for n, ty in types]
    out += [(ind, ['abbrev', 'pub', need, ':'] + c + ['→', cap, 'c'])]
    return out + [(ind, [need, 'c', '=', 'record', '{'] + [x for n, v in values for x in [n, '='] + v + [';']] + ['}'])]

def easy(plan, tie, hard, start):
    """the needs that Proof.antt does not answer, and a `spec` that asks for those that it does"""
    needs, given = [x[5:] for x in plan.order], {need: f'a{i}' for i, (_, need) in enumerate(hard)}
    out = []
    for n in needs:
        if n not in given: out += [(0, [n, ':', f'{tie}.Need-{n}']), (0, [n, 'c', '=', 'search', 'needs'])]
    if out: out.insert(0, (0, toks('use borrow.Author.Needs.{needs}')))
    asked = [x for n in given for x in (f'{tie}.Need-{n}', '→')]
    binds = ['λ'] + list(given.values())[:-1] + [list(given.values())[-1] + '.'] if given else []
    out.append((0, toks('module _ {M : Type 1} where')))
    out.append((2, ['pub', 'spec', ':'] + asked + [f'{plan.lts}.Closed'] + start + ['M']))
    return out + [(2, ['spec', '='] + binds + [f'{tie}.spec'] + [given.get(n, n) for n in needs])]

def lines(f, plan, tie, proof):
    """the logical lines of At.antt"""
    _, named, hard = asks(proof)
    start, out, ind = list(plan.start), [], 0
    if start[0] == '(':
        r = start[:close_at(start, 0) + 1]
        out += [(0, toks(f'abbrev readings : {plan.lts}.Claims')), (0, ['readings', '='] + r)]
        start[:len(r)] = ['readings']
    elif start[0] == 'readings': start[0] = f'{tie}.readings'
    if plan.loops:
        binds = [x for n, ty in plan.loops for x in ('(', n, ':', f'{tie}.{ty}', ')')]
        out.append((0, ['module', '_'] + binds + ['where']))
        ind = 2
    for need in named:
        if need in plan.needs: out += record(plan, tie, need, start, ind)
    if hard is not None and plan.loops: raise SystemExit(f'places: {f} has a loop: name all its needs in Proof.antt')
    return out + (easy(plan, tie, hard, start) if hard is not None else [])

def place(crate, pdir, f, generated):
    """writes the At of one function, below pdir"""
    path = f.replace('::', '/')
    P, F, by = f'Rattle·{crate}·proofs.proofs.' + path.replace('/', '.'), f'{pdir}/{path}', f'{pdir}/By/{path}'
    if os.path.exists(f'{by}/Lts.antt'): plan, tie = Plan(f'{by}/Lts.antt', f'{F}/Proof/Tie.antt'), f'{P}.Proof.Tie'
    else:
        g = f'{generated()}/Rattle·{crate}·proofs/proofs/{path}'
        if not os.path.exists(f'{g}/Lts.antt'): raise SystemExit(f'places: {f} is neither covered nor derived')
        plan, tie = Plan(f'{g}/Lts.antt', f'{g}/Tie.antt'), f'{P}.Tie'
    what = f'what is bound before the needs of `{f}`, by name, and its easy needs'
    text = lines(f, plan, tie, open(f'{F}/Proof.antt').read())
    write(f'{F}/Proof/At.antt', f'-- GENERATED by tools/places.py: {what}. Do not edit.', text)
    return f'{F}/Proof/At.antt'

def proofs(pdir):
    """the functions that have a Proof.antt"""
    return sorted(os.path.relpath(d, pdir).replace('/', '::') for d, _, fs in os.walk(pdir) if 'Proof.antt' in fs)

def main():
    words = sys.argv[1:]
    check, given = '--check' in words, None
    if check: words.remove('--check')
    if '--generated' in words:
        i = words.index('--generated')
        given = words[i + 1]
        del words[i:i + 2]
    if len(words) < 2: raise SystemExit(__doc__)
    repo, crate, only = os.path.abspath(words[0]), words[1], words[2:]
    pdir, tmp = f'{repo}/crates/{crate}/proofs', tempfile.mkdtemp(prefix='places-')
    def generated():
        nonlocal given
        if not given:
            given = f'{tmp}/generated'
            subprocess.run(['rt', 'dev', crate, '--generated', given], cwd=repo, capture_output=True)
        return given
    out = pdir
    if check:
        out = f'{tmp}/{crate}/proofs'
        shutil.copytree(pdir, out)
    wrote, idle = [], []
    for f in only or proofs(out):
        F = f'{out}/' + f.replace('::', '/')
        if asks(open(f'{F}/Proof.antt').read())[0]: wrote.append(place(crate, out, f, generated))
        elif os.path.exists(f'{F}/Proof/At.antt'): idle.append(f'{F}/Proof/At.antt')
    formatted(os.path.dirname(out), wrote)
    stale = []
    if check:
        for f in wrote + idle:
            p = os.path.relpath(f, out)
            same = os.path.exists(f'{pdir}/{p}') and open(f'{pdir}/{p}').read() == open(f).read()
            if f in idle or not same: stale.append(f'crates/{crate}/proofs/{p}')
        for f in stale: print('stale:', f)
        print(f'{len(wrote)} written anew, {len(stale)} files stale')
    else:
        for f in idle: os.remove(f)
        print(len(wrote), 'written')
    shutil.rmtree(tmp)
    sys.exit(1 if stale else 0)

if __name__ == '__main__': main()
