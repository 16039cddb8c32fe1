#!/usr/bin/env python3
"""No line over 120 columns in what is written by hand.

    columns.py --check REPO      lists the longer lines of the tracked files; exit status 1 if there is one
    columns.py --write PATH ..   breaks those of .antt and .rt files (a folder: of all in it), and lists what is left

A file keeps its tokens, save that a long `use` becomes several and that a list with an item to a line ends in a
separator, as `rt fmt` writes it. A comment is filled again from its long line on. In a definition the lines that are
short stay; a long one is broken at its outermost structure: after the `=`, after each `in`, before `→` and the
operators, then between arguments, and within an argument only where it is longer than a line. The indentation is that
of `rt fmt`, which has the last word.
"""
import os, re, subprocess, sys, tempfile
from antt import WIDTH, formatted

# ================================================================ the files
GENERATED = re.compile(r'(^|/)(proofs/By/.*|proofs/By\.antt|proofs/StructRow\.antt|Proof/(Tie|At)\.antt'
                       r'|specs/Worked/All\.antt|tools/trial/.*)$')

def over(line): return len(line) > WIDTH

def checked(root, name):
    """the text of a tracked file that is held to the width, or None"""
    path = os.path.join(root, name)
    if GENERATED.search(name) or os.path.islink(path) or not os.path.isfile(path): return None
    kind = os.path.splitext(name)[1]
    if kind not in ('.antt', '.rt', '.rs', '.py', '.md', '.sh'):
        if kind: return None
        with open(path, 'rb') as f:
            if not re.match(rb'#!.*\b(ba|da)?sh\b', f.readline()): return None
    return open(path, encoding='utf-8').read()

def long_lines(name, text):
    """the numbers of the lines over the width; in Markdown not those of tables and fenced text"""
    fenced, out = False, []
    for n, line in enumerate(text.split('\n'), 1):
        if name.endswith('.md'):
            if re.match(r'\s*(```|~~~)', line): fenced = not fenced
            if fenced or re.match(r'\s*\|', line): continue
        if over(line): out.append(n)
    return out

# ================================================================ reading
TOK = re.compile(r'"(?:\\.|[^"\\])*"|⟦[^⟧]*⟧|[(){},;⌜⌝]|[^\s(){},;"⌜⌝⟦]+|\S')
CLOSE = {'(': ')', '{': '}', '⌜': '⌝'}
PAD = {'⌜'}

class Odd(Exception):
    """text that this reader does not follow"""

class T(str):
    """a token: `sp` whether a space goes before it on a line, `nl` whether it began one, `line` on which line it was"""
    def __new__(cls, s, sp, nl, line):
        t = super().__new__(cls, s)
        t.sp, t.nl, t.line, t.end = sp, nl, line, line
        return t

class G:
    """a group in brackets: its parts, the separator between them; `spread`: each part was on a line of its own"""
    def __init__(self, o):
        self.o, self.parts, self.sep, self.close = o, [[]], '', None
        self.sp, self.nl, self.line, self.end = o.sp, o.nl, o.line, o.line
        self.record = self.spread = False

def tokens(lines):
    out, last = [], ''
    for n, line in enumerate(lines):
        at = 0
        for m in TOK.finditer(line):
            first = at == 0
            sp = last not in CLOSE and m[0] not in (')', ',', ';') if first else m.start() > at
            out.append(T(m[0], sp, first, n))
            at, last = m.end(), m[0]
    return out

def tree(ts):
    """tokens as items: tokens and groups"""
    top = []
    stack = [(None, top)]
    for t in ts:
        g, items = stack[-1]
        if t in CLOSE:
            new = G(t)
            new.record = t == '{' and bool(items) and items[-1] == 'record'
            items.append(new); stack.append((new, new.parts[-1]))
        elif t in CLOSE.values():
            if g is None or CLOSE[g.o] != t: raise Odd('brackets')
            stack.pop()
            g.close, g.end = t, t.line
            if g.sep and not g.parts[-1]: g.parts.pop()
            g.spread = bool(g.sep or g.record) and bool(g.parts[0]) and g.parts[0][0].nl
        elif t in (',', ';') and g is not None and g.o != '⌜':
            if g.sep and g.sep != t: raise Odd('separators')
            g.sep = str(t); g.parts.append([])
            stack[-1] = (g, g.parts[-1])
        else: items.append(t)
    if len(stack) > 1: raise Odd('brackets')
    return top

# ================================================================ structure
# operators, the loosest first; of EACH, every operand begins a line where not all are on one
OPS = {op: n for n, ops in enumerate(['→', '↔', '⊎ ×', '≡ ≢', '≤ <', 'then', '∙', '||', '&&', '∷ ++', '+ -', '* / %'])
       for op in ops.split()}
EACH = ('↔', '⊎', '×', '≡', '≢', '≤', '<', 'then', '∙')
SIDES = ('≡', '≢', '≤', '<')                                              # a short side stays with the other
BODY = ('λ', 'let')                                                       # reaches as far right as it can

def is_tok(x): return isinstance(x, T)
def is_case(p): return len(p) == 1 and not is_tok(p[0]) and p[0].parts[0] and p[0].parts[0][0] == 'λ'
def is_short(p): return len(flat(p) or ' ' * WIDTH) <= 12
def is_side(p): return p[0] in SIDES and is_short(p[1:])
def is_op(x): return is_tok(x) and x in OPS

def reach(items):
    """how far operators of this level are looked for"""
    return next((i for i, x in enumerate(items) if is_tok(x) and x in BODY), len(items))

def after_in(items):
    """the place after the `in` of a first `let`, or after an `in` whose `let` is on a line above; or None"""
    depth = 0 if items[0] == 'let' else 1
    if depth: return next((i + 1 for i, x in enumerate(items[:reach(items)]) if x == 'in'), None)
    for i, x in enumerate(items):
        if not is_tok(x): continue
        depth += (x == 'let') - (x == 'in')
        if depth == 0: return i + 1
    return None

def after_dot(items):
    """the place after the binders of a λ, or None"""
    return next((i + 1 for i, x in enumerate(items) if is_tok(x) and x.endswith('.')), None)

def operands(items):
    """the operands at the loosest operator, each with its operator before it; and whether each begins a line"""
    end = reach(items)
    ops = [i for i in range(1, end) if is_op(items[i])]
    if not ops: return None
    low = min(OPS[items[i]] for i in ops)
    at = [i for i in ops if OPS[items[i]] == low]
    return [items[a:b] for a, b in zip([0] + at, at + [len(items)])], items[at[0]] in EACH

def arguments(items):
    """an application's parts: projections stay with what they are of, a λ or a let takes the rest"""
    out, end = [], reach(items)
    for x in items[:end]:
        close = is_tok(x) and (x[0] == '.' or x in ('where', 'in', '=', ':')) or not x.sp
        if out and (close or out[-1][-1] == 'record'): out[-1].append(x)
        else: out.append([x])
    return out + ([items[end:]] if end < len(items) else [])

def words(items):
    """the tokens again"""
    out = []
    for x in items:
        if is_tok(x): out.append(x)
        else: out += [x.o] + [t for n, p in enumerate(x.parts) for t in [x.sep] * (n > 0) + words(p)] + [x.close]
    return out

# ================================================================ printing
def flat(items):
    """on one line; None where a group in it keeps its lines"""
    s = ''
    for n, x in enumerate(items):
        if n and x.sp: s += ' '
        if is_tok(x): s += x
        else:
            parts = [flat(p) for p in x.parts]
            if x.spread or None in parts: return None
            pad = ' ' if x.record or x.o in PAD or x.parts[0] and x.parts[0][0].sp else ''
            s += x.o + pad + (x.sep + ' ').join(parts) + pad + x.close
    return s

class Page:
    """lines in the making: `old` are those of the text, `cont` is the column of a line that goes on"""
    def __init__(self, old): self.old, self.lines, self.cur, self.depth, self.cost = old, [], '', 0, 0

    def turn(self, col):
        if self.cur.strip(): self.lines.append(self.cur.rstrip()); self.cost += 1 + self.depth
        self.cur = ' ' * col

    def fresh(self): return not self.cur.strip()
    def col(self): return len(self.cur) - len(self.cur.lstrip())
    def put(self, s, sp): self.cur += s if self.fresh() or not sp else ' ' + s

    def fits(self, items, tail, at=None):
        s = flat(items)
        if s is None: return False
        start = len(self.cur) + (items[0].sp and not self.fresh()) if at is None else at
        return start + len(s) + tail <= WIDTH

    def block(self, items, cont, tail, keep):
        """items with the breaks outside brackets that they have; what has no long line in it is kept, if `keep`"""
        cuts = [i for i in range(1, len(items)) if items[i].nl and not self.forced(items[i - 1], items[i])]
        parts = [items[a:b] for a, b in zip([0] + cuts, cuts + [len(items)])]
        for n, p in enumerate(parts):
            last = n == len(parts) - 1
            end = tail if last else self.opens(parts[n + 1], cont, tail)
            if n and not self.opens(p, cont, end): self.turn(cont)
            rows = [r.rstrip() for r in self.old[p[0].line:p[-1].end + 1]]
            if last and tail == 1 and rows[-1].endswith((',', ';')): rows[-1] = rows[-1][:-1]    # the part's separator
            same = keep and p[0].nl and self.fresh() and len(rows[0]) - len(rows[0].lstrip()) == self.col()
            if same and not any(map(over, rows)) and len(rows[-1]) + end <= WIDTH and said(rows) == words(p):
                self.lines += rows[:-1]
                self.cur = rows[-1]
            else: self.emit(p, cont, end)

    def forced(self, a, b):
        """a break between arguments that stands there since the line before is long"""
        if is_tok(b) and (b in OPS or b in BODY) or is_tok(a) and a in ('=', 'in', ':', '→'): return False
        return over(self.old[a.end])

    def emit(self, items, cont, tail):
        """items from where the line stands; so many characters must have room behind them"""
        if not items: return
        if self.fits(items, tail): return self.put(flat(items), items[0].sp)
        k = next((i for i, x in enumerate(items) if not is_tok(x) and x.spread), 0)
        if k and self.fits(items[:k], 2) and all(map(is_tok, items[k + 1:])):      # up to a list that has its lines
            self.put(flat(items[:k]), items[0].sp)
            return self.single(items[k:], cont, tail)
        end = after_in(items)
        if end and end < len(items):                                      # let .. in, and what follows
            opens = self.opens(items[end:], cont, tail)
            self.emit(items[:end], cont, opens)
            if not opens: self.turn(cont)
            return self.emit(items[end:], cont, tail)
        eq = next((i for i, x in enumerate(items[:-1]) if x == '='), None)
        start = 0 if items[0] == 'let' else reach(items)
        if eq is not None and (items[0] == 'let' or eq < start): return self.equation(items, eq, cont, tail)
        if items[0] in ('let', ':') and len(items) > 1:
            self.put(items[0], items[0].sp)
            return self.emit(items[1:], cont, tail)
        if items[0] == 'λ':
            dot = after_dot(items)
            if dot and dot < len(items):
                self.line(items[:dot], cont)
                rest = items[dot:]
                if not self.fits(rest, tail) and self.fits(rest, tail, cont): self.turn(cont)
                return self.emit(rest, cont, tail)
        colon = next((i for i, x in enumerate(items[:reach(items)]) if x == ':'), None)
        parts = arguments(items[:colon or 0])
        if len(parts) > 1 and len(flat(items[colon:]) or ' ' * WIDTH) <= 24:
            return self.pieces(parts[:-1] + [parts[-1] + items[colon:]], False, cont, tail)
        if colon is not None and colon + 1 < len(items):
            self.line(items[:colon + 1], cont)
            return self.emit(items[colon + 1:], cont, tail)
        if is_op(items[0]) and len(items) > 1 and not self.looser(items):
            self.put(items[0], items[0].sp)
            return self.emit(items[1:], cont, tail)
        found = operands(items)
        if found and found[0][1][0] in SIDES and is_short(found[0][0]) and len(found[0]) == 2:
            self.put(flat(found[0][0] + items[len(found[0][0]):][:1]), items[0].sp)
            return self.emit(found[0][1][1:], cont, tail)
        if found: return self.pieces(found[0], found[1], cont, tail)
        parts = arguments(items)
        if len(parts) > 1: return self.pieces(parts, False, cont, tail)
        self.single(items, cont, tail)

    def looser(self, items):
        """whether an operator further on binds more loosely than the first token"""
        return any(is_op(x) and OPS[x] <= OPS[items[0]] for x in items[1:reach(items)])

    def line(self, items, cont):
        """a head: on this line, or in pieces"""
        if self.fits(items, 1): self.put(flat(items), items[0].sp)
        else: self.pieces(arguments(items), False, cont, 1)

    def equation(self, items, eq, cont, tail):
        """name args = body, in a let too"""
        head, body = items[:eq + 1], items[eq + 1:]
        self.emit(head, cont, 0)
        if self.fits(body, tail) or self.opens(body, cont, tail): return self.emit(body, cont, tail)
        if items[0] != 'let' or self.fits(body, tail, cont): self.turn(cont)
        else:
            first = operands(body)
            if first and not self.fits(first[0][0], 0): self.turn(cont)
        self.emit(body, cont, tail)

    def pieces(self, parts, each, cont, tail):
        """parts one after the other, each on a line of its own or as many as fit"""
        broken, cases = False, 0
        while cases < len(parts) and is_case(parts[-1 - cases]): cases += 1
        for n, p in enumerate(parts):
            end = tail if n == len(parts) - 1 else self.opens(parts[n + 1], cont, 0)
            if n:
                rest = [x for q in parts[n:] for x in q]
                here = self.fits(p, end)
                if each: turns = not (is_side(p) and here)
                elif cases > 1 and n >= len(parts) - cases: turns = True
                elif self.fits(rest, tail): turns = False
                elif not here and self.opens(p, cont, end): turns = False
                elif broken: turns = not (is_short(p) and here)
                elif here: turns = 1 < n == len(parts) - 2 and is_short(parts[-1]) and self.fits(rest, tail, cont)
                elif self.fits(p, end, cont) or n > 1 or is_op(p[0]) or not is_tok(parts[0][0]): turns = True
                else: turns = self.better(p, cont, end)                   # after the head
                if turns: self.turn(cont)
            rows = len(self.lines)
            if each and is_op(p[0]) and len(p) > 1 and not self.fits(p, end):
                self.put(p[0], p[0].sp); self.emit(p[1:], cont, end)
            else: self.emit(p, cont, end)
            broken = len(self.lines) > rows

    def opens(self, items, cont, tail):
        """a list with an item to a line opens on the line that is there: the room for its bracket, else 0"""
        k = 1 if items[0] == 'record' and len(items) > 1 else 0
        g = items[k]
        if is_tok(g) or not (g.sep or g.record): return 0
        if not all(is_tok(x) and (x[0] == '.' or x == 'in') for x in items[k + 1:]): return 0
        return 2 + 7 * g.record if g.spread or not self.fits(items, tail, cont) else 0

    def better(self, items, cont, tail):
        """whether the breaks are further out if the items begin a line"""
        costs = []
        for turned in (False, True):
            page = Page(self.old)
            page.cur, page.depth = self.cur, self.depth
            if turned: page.turn(cont)
            page.emit(items, cont, tail)
            costs.append((any(map(over, page.lines)), page.cost))
        return costs[1] < costs[0]

    def single(self, items, cont, tail):
        """one token or group, with its projections"""
        for n, x in enumerate(items):
            end = len(flat(items[n + 1:]) or '') + (n + 1 < len(items)) + tail
            if is_tok(x): self.put(x, x.sp)
            elif self.fits([x], end): self.put(flat([x]), x.sp)
            elif x.sep or x.record:
                self.put(x.o, x.sp)
                at = self.col()
                for p in x.parts:
                    self.turn(at + 2)
                    self.block(p, at + 6, 1, x.spread)
                    self.cur += x.sep or ';'
                self.turn(at); self.put(x.close, False)
            else:
                self.put(x.o, x.sp)
                if x.o in PAD: self.cur += ' '
                self.depth += 1
                self.emit(x.parts[0], cont, end + len(x.close) + (x.o in PAD))
                self.depth -= 1
                self.put(x.close, x.o in PAD)

    def done(self):
        self.turn(0)
        return self.lines

# ================================================================ the parts of a file
def use_lines(line):
    """a `use` with many names as several"""
    m = re.match(r'(\s*(?:ghost |pub )*use [^\s{]+\.\{)([^{}]*)(\};?)$', line)
    if not m: return [line]
    names = [x.strip() for x in m[2].split(',') if x.strip()]
    def rows(width):
        out, cur = [], ''
        for name in names:
            new = f'{cur}, {name}' if cur else name
            if cur and len(m[1] + new + m[3]) > width: out.append(cur); cur = name
            else: cur = new
        return [m[1] + x + m[3] for x in out + [cur]]
    most = len(rows(WIDTH))
    return next(r for r in map(rows, range(1, WIDTH + 1)) if len(r) == most)     # of like lengths

COMMENT = re.compile(r'(\s*(?:--|//[/!]?) )(\s*)(.*)$')
MARK = re.compile(r'[-*·] |\d+\. |\S(?:\S| (?! ))* {2,}')                 # begins an item or a row

def filled(lines):
    """a run of comment lines: from a long one on, to the end of its paragraph, filled again"""
    out, n = [], 0
    while n < len(lines):
        m = COMMENT.match(lines[n])
        if not m or not over(lines[n]): out.append(lines[n]); n += 1; continue
        lead, inner, text = m.groups()
        mark = MARK.match(text)
        mark = mark[0] if mark else ''
        hang, words, last = inner + ' ' * len(mark), text[len(mark):].split(), lines[n]
        n += 1
        while n < len(lines):
            k = COMMENT.match(lines[n])
            if not k or k[1] != lead or k[2] != hang or not k[3] or MARK.match(k[3]) or k[3].startswith('----'): break
            room = len(last) + 1 + len(k[3].split()[0]) <= 150             # then a sentence was ended on purpose
            if last.endswith(('.', ':')) and room and not k[3][0].islower(): break
            words += k[3].split(); last = lines[n]
            n += 1
        cur = lead + inner + mark + words[0]
        for w in words[1:]:
            if over(cur + ' ' + w): out.append(cur); cur = lead + hang + w
            else: cur += ' ' + w
        out.append(cur)
    return out

def is_use(line): return re.match(r'\s*(ghost |pub )*use ', line)
def is_comment(line): return line.lstrip().startswith(('--', '//'))

def depth(line):
    ts = TOK.findall(line)
    return sum(t in CLOSE for t in ts) - sum(t in CLOSE.values() for t in ts)

def definition(lines):
    """the lines of one definition, signature or the like"""
    ind = len(lines[0]) - len(lines[0].lstrip())
    page = Page(lines)
    page.cur = ' ' * ind
    page.block(tree(tokens(lines)), ind + 4, 0, True)
    return page.done()

def clause(lines):
    """a contract's clause: the fact on lines of its own"""
    ind = len(lines[0]) - len(lines[0].lstrip())
    items = tree(tokens(lines))
    *head, body = items
    if len(head) not in (1, 2) or not all(map(is_tok, head)) or is_tok(body) or body.o != '{' or body.sep:
        raise Odd('a clause of another form')
    inner = body.parts[0]
    fact = inner[-1]
    page = Page(lines)
    page.cur = ' ' * ind
    page.put(' '.join(head) + ' {', False)
    if is_tok(fact) or fact.o != '⌜': page.emit(inner, ind + 4, 2)
    else:
        if len(inner) > 1: page.emit(inner[:-1], ind + 4, 2)
        page.put('⌜', True); page.turn(ind + 4)
        page.block(fact.parts[0], ind + 4, 4, True)
        page.put('⌝', True)
    page.put('}', True)
    return page.done()

def units(lines, rust):
    """the text in parts: (kind, lines)"""
    n = 0
    while n < len(lines):
        a, line = n, lines[n]
        n += 1
        if is_comment(line):
            while n < len(lines) and is_comment(lines[n]): n += 1
            yield 'comment', lines[a:n]
        elif not line.strip(): yield '', lines[a:n]
        elif is_use(line): yield 'use', lines[a:n]
        elif rust:
            if re.match(r'\s*(ensures|requires)\*?( \w+)? \{', line):
                d = depth(line)
                while d > 0 and n < len(lines): d += depth(lines[n]); n += 1
                yield 'clause', lines[a:n]
            else: yield '', lines[a:n]
        else:
            ind, d = len(line) - len(line.lstrip()), depth(line)
            while n < len(lines) and lines[n].strip() and not is_comment(lines[n]):
                if d <= 0 and len(lines[n]) - len(lines[n].lstrip()) < ind + 4: break
                d += depth(lines[n]); n += 1
            yield 'definition', lines[a:n]

def said(lines):
    """what may not change: the tokens, less separators before a closing bracket; a comment's words"""
    text = '\n'.join(lines)
    if is_comment(lines[0]): return [w for w in text.split() if not re.fullmatch(r'--|//[/!]?', w)]
    return TOK.findall(re.sub(r'[,;](?=\s*[)}])', '', text))

def imported(lines):
    """the names of `use` lines with their paths"""
    out = []
    for line in lines:
        m = re.match(r'\s*(.*?)\{(.*)\}', line)
        out += [(m[1], x.strip()) for x in m[2].split(',')] if m else [line.strip()]
    return out

def meaning(text):
    """comments, imports and tokens of a file"""
    lines = [x for x in text.split('\n') if x.strip()]
    notes, uses = [x for x in lines if is_comment(x)], [x for x in lines if is_use(x)]
    code = [x for x in lines if not is_comment(x) and not is_use(x)]
    return [said(x) if x else [] for x in (notes, code)] + [imported(uses)]

def wrapped(text, rust):
    """the text with its long lines broken, and what was left for which reason"""
    out, left = [], []
    for kind, lines in units(text.split('\n'), rust):
        new = lines
        if any(map(over, lines)):
            try:
                if kind == 'comment': new = filled(lines)
                elif kind == 'use': new = use_lines(lines[0])
                elif kind == 'clause': new = clause(lines)
                elif kind == 'definition' and not any(' -- ' in x for x in lines): new = definition(lines)
                read = imported if kind == 'use' else said
                if read(new) != read(lines): raise Odd('the tokens would differ')
            except Odd as e:
                left.append((str(e), lines[0].strip()[:60]))
                new = lines
        out += new
    return '\n'.join(out), left

# ================================================================ the commands
def hand_written(paths):
    for path in paths:
        inside = [os.path.join(d, f) for d, _, fs in os.walk(path) for f in fs if '/out/' not in f'{d}/']
        inside = inside if os.path.isdir(path) else [path]  # without what rt made, in out/
        yield from sorted(f for f in inside if f.endswith(('.antt', '.rt')) and not GENERATED.search(f))

def laid_out(texts):
    """path to text: as `rt fmt` lays the files out"""
    with tempfile.TemporaryDirectory(prefix='columns-') as tmp:
        part = {'.rt': 'src', '.antt': 'specs'}                           # rt fmt reads no other folders
        for folder in part.values(): os.mkdir(f'{tmp}/{folder}')
        ends = [(path, os.path.splitext(path)[1]) for path in texts]
        names = {path: f'{tmp}/{part[end]}/f{n}{end}' for n, (path, end) in enumerate(ends)}
        for path, name in names.items(): open(name, 'w').write(texts[path])
        if names: formatted(tmp, list(names.values()))
        return {path: open(name).read() for path, name in names.items()}

def write(paths):
    old = {path: open(path).read() for path in hand_written(paths)}
    old = {path: text for path, text in old.items() if any(map(over, text.split('\n')))}
    new = {path: wrapped(text, path.endswith('.rt')) for path, text in old.items()}
    n = 0
    for path, text in laid_out({path: text for path, (text, _) in new.items()}).items():
        for why, where in new[path][1]: print(f'{path}: left, {why}: {where}')
        if meaning(text) != meaning(old[path]): print(f'{path}: left, rt fmt changes the tokens'); text = old[path]
        for k in long_lines(path, text): print(f'{path}:{k}: long'); n += 1
        if text != old[path]: open(path, 'w').write(text)
    print(f'{len(old)} files had long lines, {n} lines are left')
    return n

def check(root):
    names = subprocess.run(['git', 'ls-files', '-z'], cwd=root, capture_output=True, text=True, check=True).stdout
    n = 0
    for name in names.split('\0'):
        text = checked(root, name) if name else None
        for k in long_lines(name, text) if text is not None else []: print(f'{name}:{k}'); n += 1
    print(n, f'lines over {WIDTH} columns')
    return n

def main():
    words = [w for w in sys.argv[1:] if not w.startswith('--')]
    if '--check' in sys.argv and len(words) == 1: sys.exit(1 if check(words[0]) else 0)
    if '--write' in sys.argv and words: sys.exit(1 if write(words) else 0)
    raise SystemExit(__doc__)

if __name__ == '__main__': main()
