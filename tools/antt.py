"""antt text by tokens: a reader, and a printer in the layout that the older kit's `rt fmt` left as it was, for
derive.py and places.py, which are of that kit. columns.py takes `WIDTH` and `formatted`.
"""
import os, re, shutil, subprocess, tempfile

WIDTH = 120

# ================================================================ reading
TOK = re.compile(r'"[^"]*"|[(){},;]|[^\s(){},;"]+')
toks = TOK.findall

def logical(text):
    """the text as logical lines: (indent, tokens)"""
    out, cur, ind, depth = [], None, 0, 0
    for line in text.split('\n'):
        if not line.strip() or line.lstrip().startswith('--'): continue
        i, t = len(line) - len(line.lstrip()), toks(line)
        if cur is not None and (depth > 0 or i >= ind + 4): cur += t
        else:
            if cur is not None: out.append((ind, cur))
            cur, ind = list(t), i
        depth += sum(x in ('(', '{') for x in t) - sum(x in (')', '}') for x in t)
    if cur is not None: out.append((ind, cur))
    return out

def is_use(t): return t[0] == 'use' or t[:2] == ['pub', 'use']

def read(path):
    """logical lines, with every name at its full path"""
    al, body = {}, []
    for ind, t in logical(open(path).read()):
        if t[0] == 'use' and ind == 0 and '{' not in t: al[t[3] if len(t) > 3 else t[1].split('.')[-1]] = t[1]
        elif is_use(t): body.append((ind, t))
        else:
            def full(x):
                if x[0] in '."' or '.' not in x: return x
                h, r = x.split('.', 1)
                return al[h] + '.' + r if h in al and r else x
            body.append((ind, [full(x) for x in t]))
    return body

def close_at(t, i):
    """the place of the bracket that closes the one at i"""
    d = 0
    while True:
        if t[i] in ('(', '{'): d += 1
        elif t[i] in (')', '}'):
            d -= 1
            if d == 0: return i
        i += 1

def open_at(t, i):
    """the place of the bracket that opens the one at i"""
    d = 0
    while True:
        if t[i] in (')', '}'): d += 1
        elif t[i] in ('(', '{'):
            d -= 1
            if d == 0: return i
        i -= 1

# ================================================================ printing
CLOSE = {'(': ')', '{': '}'}

def tree(t):
    """tokens as a list of tokens and of groups (opening bracket, parts, separator)"""
    stack = [('', [[]], '')]
    for x in t:
        if x in ('(', '{'): stack.append((x, [[]], ''))
        elif x in (')', '}'):
            o, parts, sep = stack.pop()
            if sep and not parts[-1]: parts.pop()                         # a separator before the bracket says nothing
            stack[-1][1][-1].append((o, parts, sep))
        elif x in (',', ';') and len(stack) > 1:
            o, parts, _ = stack[-1]
            stack[-1] = (o, parts + [[]], x)
        else: stack[-1][1][-1].append(x)
    return stack[0][1][0]

def flat(items):
    """one line"""
    s, last = '', ''
    for x in items:
        s += ('' if not s else ' ') + (x if isinstance(x, str) else flat_group(x, last))
        last = x
    return s

def flat_group(g, last):
    o, parts, sep = g
    inner = (sep + ' ').join(flat(p) for p in parts)
    if o == '(': return '(' + inner + ')'
    return '{ ' + inner + ' }' if last == 'record' else '{' + inner + '}'

def laid(ind, t):
    """the lines of one logical line: a group with separators is on one line, or each part is on a line of its own"""
    lines, cur = [], [' ' * ind]
    def room(s, tail): return len(cur[0]) + len(s) + tail <= WIDTH
    def put(s, glue): cur[0] += s if glue or not cur[0].strip() else ' ' + s
    def turn(to):
        lines.append(cur[0].rstrip()); cur[0] = ' ' * to
    def emit(items, base, first, tail):
        """`first`: nothing goes before the first item; `tail`: so many characters must follow the last"""
        last = ''
        for n, x in enumerate(items):
            glue, end = first and n == 0, tail if n == len(items) - 1 else 0
            s = x if isinstance(x, str) else flat_group(x, last)
            fresh = not cur[0].strip()
            more = items[n + 1] if x in ('λ', 'record') and n + 1 < len(items) else ''  # no line ends in one of these
            ahead = len(more) + 1 if isinstance(more, str) else min(len(flat_group(more, x)), WIDTH // 2) + 1
            if room(s, max(end, ahead) + 1) or (fresh and isinstance(x, str)) or x == 'where': put(s, glue)
            elif isinstance(x, str):
                if glue: put(s, glue)
                else: turn(base + 4); put(s, True)
            elif not glue and not fresh and last != 'record' and len(s) + end < WIDTH // 2: turn(base + 4); put(s, True)
            elif x[2] or last == 'record':
                put(x[0], glue); at = len(cur[0]) - len(cur[0].lstrip())
                for p in x[1]:
                    turn(at + 2); emit(p, at + 2, True, 1); cur[0] += x[2] or ';'
                turn(at); put(CLOSE[x[0]], True)
            else:
                put(x[0], glue); emit(x[1][0], base, True, end + 1); cur[0] += CLOSE[x[0]]
            last = x
    emit(tree(t), ind, True, 0)
    lines.append(cur[0].rstrip())
    return lines

def write(path, head, body):
    """names at short paths again"""
    mods = set()
    for _, t in body:
        if is_use(t): continue
        for x in t:
            if x[0] not in '."' and '.' in x and x[-1] != '.':
                m = x.rsplit('.', 1)[0]
                if re.match(r'^[^\W\d]', m): mods.add(m)
    declared = {next((x for x in t if x not in ('abbrev', 'pub', 'record')), '') for _, t in body}
    used, short = declared, {}                                            # no alias is a name that the file declares
    for m in sorted(mods):
        a = m.split('.')[-1]
        while a in used: a += "'"
        used.add(a); short[m] = a
    lines = [head] + ['use %s%s' % (m, '' if m.split('.')[-1] == a else ' as ' + a) for m, a in sorted(short.items())]
    if any('∷' in t for _, t in body): lines.append('use mathlib.Core.List.{_∷_}')
    named = [' '.join(t).replace(' { ', '{').replace(' }', '}').replace(' ,', ',') for _, t in body if is_use(t)]
    lines += [u for u in named if u not in lines] + ['']
    def name(x):
        if x[0] not in '."' and '.' in x and x[-1] != '.':
            m, n = x.rsplit('.', 1)
            if m in short: return short[m] + '.' + n
        return x
    for ind, t in body:
        if not is_use(t): lines += laid(ind, [name(x) for x in t])
    os.makedirs(os.path.dirname(path), exist_ok=True)
    open(path, 'w').write('\n'.join(lines) + '\n')

def formatted(crate_dir, files):
    """has `rt fmt` lay out the files, and nothing else of the crate"""
    tmp = tempfile.mkdtemp(prefix='layout-')
    open(f'{tmp}/crates.txt', 'w').write('c:\n')
    for f in files:
        to = f'{tmp}/crates/c/' + os.path.relpath(f, crate_dir)
        os.makedirs(os.path.dirname(to), exist_ok=True); shutil.copy(f, to)
    p = subprocess.run(['rt', 'fmt'], cwd=f'{tmp}/crates/c', capture_output=True, text=True)
    if p.returncode: raise SystemExit('rt fmt: ' + p.stdout + p.stderr)
    for f in files: shutil.copyfile(f'{tmp}/crates/c/' + os.path.relpath(f, crate_dir), f)
    shutil.rmtree(tmp)
