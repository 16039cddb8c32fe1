"""Of the older kit, for derive.py: names for what the text of a derivation repeats, and other shortenings: the same
terms, in fewer tokens."""
import re
from antt import close_at, is_use, toks

# ================================================================ a new Lts
def shared(body):
    """names for what is written often: types of references, entries of the tables"""
    def closed(u):
        return all(x in '(),' or x.isdigit() or x == 'tt' or ('.' in x and x[-1] != '.' and x[0] != '.') for x in u)
    count, name, refs, defs = {}, {}, [], []
    def parens(t):
        for i, x in enumerate(t):
            if x == '(' and t[i + 1] == 'mir.Syntax.tyRef':
                u = tuple(t[i:close_at(t, i) + 1])
                if closed(u): yield i, u
    for _, t in body:
        for _, u in parens(t): count[u] = count.get(u, 0) + 1
    for u, n in count.items():
        if n > 2:
            name[u] = 'ref%d' % len(name)
            refs.append((0, ['abbrev', name[u], ':', 'mir.Syntax.Ty']))
            refs.append((0, [name[u], '='] + list(u[1:-1])))
    def put(t, find):
        out, i = [], 0
        at = dict(find(t))
        while i < len(t):
            if i in at and at[i] in name: out.append(name[at[i]]); i += len(at[i])
            else: out.append(t[i]); i += 1
        return out
    body = [(ind, put(t, parens)) for ind, t in body]
    def closed2(u):
        return all(x in '(),' or x.isdigit() or x == 'tt' or x.startswith('ref')
                   or ('.' in x and x[-1] != '.' and x[0] != '.') for x in u)
    def entries(t):
        if not re.fullmatch(r't\d+', t[0]) or t[1] != '=': return
        for i, x in enumerate(t):
            if x == '(' and t[i + 1].isdigit() and t[i + 2] == ',':
                u = tuple(t[i:close_at(t, i) + 1])
                if closed2(u): yield i, u
    seen, norm = {}, {}
    for _, t in body:
        for _, u in entries(t):
            v = u[:-2] + (')',) if u[-2] == ',' else u
            norm[u] = v; seen[v] = seen.get(v, 0) + 1
    k = {}
    for v in seen:
        n = 'e' + v[1]
        k[n] = k.get(n, -1) + 1
        full = n + ('' if k[n] == 0 else '·%d' % k[n])
        defs.append((0, ['abbrev', full, ':', 'borrow.Table.Row.Entry'])); defs.append((0, [full, '='] + list(v)))
        for u in norm:
            if norm[u] == v: name[u] = full
    body = [(ind, put(t, entries)) for ind, t in body]
    for i, (ind, t) in enumerate(body):
        if t[:1] == ['abbrev'] and len(t) > 2 and t[2] == 't0': return refs + body[:i] + defs + body[i:]
    return refs + defs + body

def leases(body):
    """names for the lifetimes of the signature, in the section that binds them"""
    at = next((i for i, (ind, t) in enumerate(body) if t[:2] == ['module', '_'] and 'κs' in t and 'qs' in t), None)
    if at is None: return body
    name, defs, ind = {}, [], body[at][0] + 2
    def put(t):
        out, i = [], 0
        while i < len(t):
            if t[i:i + 3] == ['(', 'borrow.Table.Row.lease', '('] and t[i + 3] == 'κs':
                j = close_at(t, i) + 1
                u = tuple(t[i + 1:j - 1])
                if u not in name:
                    name[u] = 'life%d' % len(name)
                    defs.append((ind, ['abbrev', name[u], ':', 'borrow.Table.Row.Life']))
                    defs.append((ind, [name[u], '='] + list(u)))
                out.append(name[u]); i = j
            else: out.append(t[i]); i += 1
        return out
    end = next((i for i in range(at + 1, len(body)) if body[i][0] <= body[at][0]), len(body))
    new = [(d, put(t)) for d, t in body[at + 1:end]]
    return body[:at + 1] + defs + new + body[end:]

CONS = 'mathlib.Core.List._∷_'
def infix(t):
    """`_∷_ x y` as `x ∷ y`, without the parentheses of a y that is another"""
    def group(i): return close_at(t, i) + 1 if t[i] in ('(', '{') else i + 1
    out, i = [], 0
    while i < len(t):
        if t[i] == CONS and i + 2 < len(t) and t[i + 1] not in (')', ','):
            j = group(i + 1); k = group(j) if j < len(t) and t[j] not in (')', ',') else None
            if k:
                y = t[j:k]
                out += infix(t[i + 1:j]) + ['∷'] + infix(y[1:-1] if y[:2] == ['(', CONS] else y); i = k; continue
        out.append(t[i]); i += 1
    return out

# ================================================================ the text of any file
KINDS = {'Struct': ('param', 'result'), 'Enum': ('enum-param', 'enum-result')}

def by_value(kind, which, T):
    """the tokens of a parameter or result by value of the declared type T, as the driver prints them"""
    d, l = f'denote.{kind}.Declared', f'denote.{kind}.Laws'
    ty, laws, few = f'{T}.the-type', f'{T}.the-type {T}.Laws.the-laws', ' tt' if kind == 'Enum' else ''
    return toks(f'''borrow.Kind.Value.{which} record {{
        ty = {d}.row {ty}; one = mathlib.Core.Path.refl; val = {l}.val {laws}; tells = {l}.tells {laws};
        still = {l}.still {ty} {T}.Laws.the-copy denote.Exit.yes; row = borrow.Table.Rows.whole ({d}.row {ty});
        rd = λ x. x; mk = λ x. x }} λ M 𝓤 H A W. record {{
        copies = {l}.copy {ty} {T}.Laws.the-copy 𝓤 H A W; lawful = {l}.lawful {laws} 𝓤 H A W{few};
        makes = {l}.makes {ty} {T}.Laws.the-plain 𝓤 H A; in-mem = borrow.Rule.Local.mem-whole 𝓤 H A W ({d}.row {ty});
        of-mem = borrow.Rule.Local.whole-mem 𝓤 H A W ({d}.row {ty}) }}
    ''')

def values(t, kit):
    """a parameter or result by value: its name in the kit"""
    out, i = [], 0
    while i < len(t):
        if t[i] in ('borrow.Kind.Value.pVal', 'borrow.Kind.Value.rVal'):
            m, which = re.fullmatch(r'denote\.(Struct|Enum)\.Declared\.row', t[i + 5]), t[i].rsplit('.', 1)[1]
            T = t[i + 6][:-len('.the-type')]
            p = by_value(m.group(1), which, T) if m else []
            if p and t[i:i + len(p)] == p:
                out.append(f'{kit}.{KINDS[m.group(1)][which == "rVal"]}')
                out += [f'{T}.the-type', f'{T}.Laws.the-laws', f'{T}.Laws.the-copy', f'{T}.Laws.the-plain']
                if m.group(1) == 'Enum': out.append('tt')                     # that its variants are few
                i += len(p)
                continue
        out.append(t[i]); i += 1
    return out

def unended(t):
    """no separator before a closing bracket"""
    return [x for i, x in enumerate(t) if not (x in (',', ';') and t[i + 1:i + 2] in ([')'], ['}']))]

def groups(t):
    """each parenthesis, with its place"""
    for i, x in enumerate(t):
        if x == '(': yield i, tuple(t[i:close_at(t, i) + 1])

def replaced(t, name, after=lambda last, u: u):
    """each parenthesis of `name` by its name; `after`: the key of a parenthesis after the token `last`"""
    out, i = [], 0
    while i < len(t):
        if t[i] == '(':
            u = tuple(t[i:close_at(t, i) + 1])
            n = name.get(after(out[-1] if out else '', u))
            if n: out.append(n); i += len(u); continue
        out.append(t[i]); i += 1
    return out

def definition(ind, name, ty, value):
    return [(ind, ['abbrev', name, ':'] + ty), (ind, [name, '='] + list(value))]

def definitions(body, form):
    """the names of a form, with their lines' places and the tokens that they stand for"""
    return [(i, t[0], tuple(t[2:])) for i, (_, t) in enumerate(body) if t[1:2] == ['='] and re.fullmatch(form, t[0])]

def named_refs(body):
    """a reference's type that has a name, where it is written with no parentheses; and the fat pointer over it"""
    refs = {u: n for _, n, u in definitions(body, r'ref\d+')}
    def bare_refs(t):
        out, i = [], 0
        while i < len(t):
            if t[i] == 'mir.Syntax.tyRef' and out[-1:] == ['=']:
                j = next((j for j in range(i, len(t)) if t[j] in (';', '}')), None)
                if j and tuple(t[i:j]) in refs: out.append(refs[tuple(t[i:j])]); i = j; continue
            out.append(t[i]); i += 1
        return out
    body, fat, defs = [(ind, bare_refs(t)) for ind, t in body], {}, []
    for n in refs.values():
        u = tuple(toks(f'''( mir.Syntax.tyStruct (38 ∷ 91 ∷ 93 ∷ mathlib.Core.List.[])
            (mir.Syntax.tcons {n} (mir.Syntax.tcons (mir.Syntax.tyInt mir.Syntax.w64) mir.Syntax.tnil)) )'''))
        if sum(g == u for _, t in body for _, g in groups(t)) > 1:
            fat[u] = 'slice' + n[3:]
            defs += definition(0, fat[u], ['mir.Syntax.Ty'], u[1:-1])
    body = [(ind, replaced(t, fat)) for ind, t in body]
    at = max([i for i, _, _ in definitions(body, r'ref\d+')], default=-1) + 1
    return body[:at] + defs + body[at:]

def named_entries(body):
    """the entries of the tables of a section: those that have a name, and names for those that are there more than
    once"""
    def table(t): return t[1:2] == ['='] and re.fullmatch(r'g\d+', t[0])
    name = {u: n for _, n, u in definitions(body, r'e\d+(·\d+)?')}
    body = [(ind, replaced(t, name) if table(t) else t) for ind, t in body]
    at = next((i for i, (_, t) in enumerate(body) if t[0] == 'abbrev' and re.fullmatch(r'g\d+', t[1])), None)
    if at is None: return body
    count, name, defs, k = {}, {}, [], {}
    for _, t in body:
        for _, u in groups(t) if table(t) else ():
            if u[1].isdigit() and u[2] == ',': count[u] = count.get(u, 0) + 1
    for u, n in count.items():
        if n < 2: continue
        k[u[1]] = k.get(u[1], -1) + 1
        name[u] = 'l' + u[1] + ('' if k[u[1]] == 0 else '·%d' % k[u[1]])
        defs += definition(body[at][0], name[u], ['borrow.Table.Row.Entry'], u)
    return body[:at] + defs + [(ind, replaced(t, name)) for ind, t in body[at:]]

def named_arguments(body):
    """a call's arguments, which the call's rule, its place and what it gives all write, after the same table's name"""
    name, out = {}, []
    for ind, t in body:
        if t[1:3] == ['=', 'borrow.Fn.Call.callB']:
            i, part = 3, []
            while len(part) < 6:                                              # ps, r, P, Q, the table, the arguments
                j = close_at(t, i) + 1 if t[i] == '(' else i + 1
                part.append(t[i:j]); i = j
            ps, table, u = part[0][0], part[4][0], tuple(part[5])
            if len(u) > 8 and (table, u) not in name and len(part[0]) == len(part[4]) == 1:
                name[table, u] = 'args' + t[0][1:]
                above = out.pop()                                             # the type of the rule that has them
                out += definition(
                    ind, name[table, u], ['borrow.Fn.Args.ArgsT', ps, '(', table, '.locals', ')'], u) + [above]
        out.append((ind, replaced(t, name, lambda last, u: (last, u))))
    return out

def readings(body):
    """in a Tie: one name for what the callees' contracts say, which each need is given"""
    u = next((t for _, t in body if t[:2] == ['Start', '=']), [])
    i = next((i for i, x in enumerate(u) if x.endswith('.Lts.Start')), None)
    if i is None or u[i + 1] != '(': return body
    lts, r = u[i][:-len('.Start')], tuple(u[i + 1:close_at(u, i + 1) + 1])
    body = [(ind, replaced(t, {r: 'readings'})) for ind, t in body]
    at = next(i for i, (_, t) in enumerate(body) if not is_use(t))
    named = [(0, ['abbrev', 'pub', 'readings', ':', f'{lts}.Claims']), (0, ['readings', '='] + list(r))]
    return body[:at] + named + body[at:]

def tidy(body, kit):
    """the same text, shorter. It is the same again on what it has made"""
    body = [(ind, t if is_use(t) else values(unended(infix(t)), kit)) for ind, t in body]
    return readings(named_arguments(named_entries(named_refs(body))))
