#!/usr/bin/env python3
"""Turns traces of the oracle (the real Rust) into a scratch repository whose theorems say that running the definition
gives, for every call, the trace's answer number, cause, word count, all words, status, next due and ledger count; and,
where the trace has state lines (`--state`), the whole private state. Each theorem is closed by refl.

    trace2antt.py REPO OUT FILE..        REPO: the repository with the definition; OUT: a folder to write
    cd OUT/crates/traces && rt check

A trace file is made with `trace gen SEED COUNT CALLS DIR --full [--state]`.
    --skip-state   leave the state lines aside
    --cut N        only the first N calls of each trace (a theorem has 50,000,000 steps: 100 calls always pass,
                   200 mostly)
    --per N        theorems of about N calls: a part begins at a `new` where the trace has one near; else the trace's
                   `new` is run before it, which is right only for traces whose calls leave nothing (utf8; not bodies:
                   the status shows it)
Of a trace that needs tables of more than LIMIT places only answers and words are compared.
"""
import os, shutil, sys
from limits import CLOSING_WORDS, HANDLE_WORDS
ROOM = 1000000  # output words lent to a call that revokes: more than any trace's records need
LIMIT = 3000  # places of the largest table that is still lent
TEXTS = ['HNSR_context_ID_is_zero', 'invalid_HNSR_open_parameters', 'invalid_HNSR_incoming_parameters',
         'invalid_HNSR_accept_response', 'HNSR_circuit_ID_is_zero', 'invalid_HNSR_DATA_size',
         'invalid_HNSR_window_credit', 'invalid_HNSR_diagnostic_detail', 'HNSR_detail_is_not_UTF-8']

def hx(t): return b'' if t == '-' else bytes.fromhex(t)
def number(b): return int.from_bytes(b, 'big')
def byte_list(b): return '[]' if not b else f'(bytes {len(b)} 0x{b.hex()})'
def body(t):
    if t[0] == '@':
        n, start = t[1:].split(':')
        return f'(pattern {n} {start})'
    return byte_list(hx(t))
def boolean(t): return 'true' if t == '1' else 'false'
def listed(ns): return '(' + ' ∷ '.join(list(map(str, ns)) + ['[]']) + ')'
def nested(rows): return '(' + '\n      ∷ '.join(rows + ['[]']) + ')'
def reservation(b): return f'(reservation_of 0x{b.hex()})'

def call(name, f):
    if name == 'new':
        return f'begin (start_of {byte_list(hx(f[0]))} {f[1]} (config_from {" ".join(f[2:11])}) {f[11]})'
    if name == 'handle':
        if f[6] == '-': adm = 'refused'
        else:
            e, r, x, m, b, t = f[6].split(':')
            adm = f'(grant_of {byte_list(hx(e) if e else b"")} {reservation(hx(r))} {x} {m} {b} {t})'
        return (f'item (packet_of {byte_list(hx(f[0]))} {f[1]} {number(hx(f[2]))} {body(f[3])} {f[4]} {boolean(f[5])} '
                f'{adm} {byte_list(hx(f[7]))})')
    if name == 'acknowledge': return f'item (call_acknowledge {f[0]} {f[1]} {boolean(f[2])} {CLOSING_WORDS})'
    if name == 'disconnect': return f'item (call_disconnect {byte_list(hx(f[0]))} {ROOM})'
    if name == 'revoke_reservation': return f'item (call_revoke_reservation {reservation(hx(f[0]))} {ROOM})'
    if name == 'expire': return f'item (call_expire {f[0]} {ROOM})'
    if name == 'observe_time': return f'item (call_observe_time {f[0]})'
    if name == 'replace_enabled': return f'item (call_replace_enabled {f[0]} {boolean(f[1])} {ROOM})'
    if name == 'poke_sequence': return f'poke {f[0]}'
    raise SystemExit('unknown call ' + name)

def cause(t):
    if t == '-': return [0, 0, 0]
    k, *v = t.split(':')
    if k == 'end': return [1, int(v[0]), int(v[1])]
    if k == 'trailing': return [2, int(v[0]), 0]
    if k == 'invalid': return [3, TEXTS.index(v[0]) + 1, 0]
    if k == 'large': return [4, int(v[0]), int(v[1])]
    if k == 'admission': return [5, 0, 0]
    raise SystemExit('unknown cause ' + t)

def packed(words):
    return [hex(sum(int(x, 16) << (32 * i) for i, x in enumerate(words[k:k + 16]))) for k in range(0, len(words), 16)]
def peer_number(b): return f'0x01{b.hex()}'

def state_row(line):
    k, *f = line[1:].split(' ')
    if k == 'pending':
        return [1, number(hx(f[0])), peer_number(hx(f[1])), peer_number(hx(f[2])), number(hx(f[3])),
                number(hx(f[4]))] + f[5:]
    if k == 'circuit':
        return [2, number(hx(f[0])), peer_number(hx(f[1])), peer_number(hx(f[2])), number(hx(f[3]))] + f[4:]
    if k == 'ledger': return [3, number(hx(f[0]))] + f[1:]
    if k == 'action': return [4, f[0], f[1], number(hx(f[2])), peer_number(hx(f[3])), f[4], f[5]]
    raise SystemExit('unknown state ' + line)

def read(path, with_state):
    places, rows = None, []
    for line in open(path):
        line = line.rstrip('\n')
        if line.startswith('places'): places = list(map(int, line.split()[1:])); continue
        if line.startswith('#state'):
            if with_state: rows[-1]['state'] = [[0, line.split()[2]]]
            continue
        if line.startswith(('#pending', '#circuit', '#ledger', '#action')):
            if with_state: rows[-1]['state'].append(state_row(line))
            continue
        if line[0] == '#': continue
        left, right = line.split(' => ')
        name, cls, *f = left.split(' ')
        answer, why, n, digest, *words = right.split(' | ')[0].split(' ')
        st = right.split(' | ')[1].split(' ')
        if len(words) != int(n): raise SystemExit(path + ': words are missing, generate with --full')
        rows.append(dict(call=call(name, f), seen=[int(answer)] + cause(why) + [int(n)] + packed(words),
                         status=None if st == ['-'] else st, state=None, line=line[:90]))
    return places, rows

def status_row(st):
    due = [0, 0] if st[12] == '-' else [1, st[12]]
    return st[:12] + due + [st[13]]

HELP = '''-- What a theorem of a trace says of a call. Made by tools/trace2antt.py.
use Rattle.std.specs.Prelude.{ℕ, zero, suc, ◌+◌, ◌*◌, ◌/◌, ◌%◌, Bool, true, false, cond, eqb, Option, None, Some, Ok}
use Rattle.std.specs.Prelude.{List, [], ◌∷◌, ◌++◌, length, get_or}
use Rattle.hns_encoding.specs.Bytes.{be_bytes, be_from}
use Rattle.hnsr_body.specs.declared.values.ReservationId.{ReservationId}
use Rattle.hnsr_body.specs.declared.error.Cause.{Cause}
use Rattle.hnsr_circuit.specs.declared.peer.HnsrPeerId.{HnsrPeerId}
use Rattle.hnsr_circuit.specs.declared.records.RelayPending.{RelayPending}
use Rattle.hnsr_circuit.specs.declared.records.RelayCircuit.{RelayCircuit}
use Rattle.hnsr_circuit.specs.declared.records.ReservationUsage.{ReservationUsage}
use Rattle.hnsr_circuit.specs.declared.records.InflightAction.{InflightAction}
use Rattle.hnsr_circuit.specs.declared.tables.scan.Walked.{Walked}
use Rattle.hnsr_circuit.specs.declared.config.OpaqueRelayConfig.{OpaqueRelayConfig}
use Rattle.hnsr_circuit.specs.declared.runtime.HnsrRuntimeStatus.{HnsrRuntimeStatus}
use Rattle.hnsr_circuit.specs.Table.{not_yet, next}
use Rattle.hns_encoding.specs.Sums.{count}
use Rattle.hnsr_circuit.specs.Peer.{peer_bytes}
use Rattle.hnsr_circuit.specs.Answers.{number, cause_of}
use Rattle.hnsr_circuit.specs.Pending.{no_ticket, no_pending, pending_id, is_pending}
use Rattle.hnsr_circuit.specs.Circuits.{no_circuit, circuit_id, is_circuit}
use Rattle.hnsr_circuit.specs.Ledger.{no_usage, is_usage}
use Rattle.hnsr_circuit.specs.Inflight.{no_action, is_action}
use Rattle.hnsr_circuit.specs.Route.{out_words}
use Rattle.hnsr_circuit.specs.Runtime.{with_sequence}
use Rattle.hnsr_circuit.specs.World.{World, Outcome, Told, silent, status_is, due_is, with_runtime}
use Rattle.hnsr_circuit.specs.Packet.{Admission, Packet}
use Rattle.hnsr_circuit.specs.Call.{Start, Call, call_handle, call_status, call_next_due, start, step}
use Rattle.hnsr_circuit.specs.Worked.All.{machine}

pub data Item : Type 0 where
  begin : Start → Item
  item : Call → Item
  poke : ℕ → Item

-- ---- inputs
unfoldable pub bytes : ℕ → ℕ → List ℕ
unfolding be_bytes
bytes n x = be_bytes n x

unfoldable pub pattern_from : ℕ → ℕ → ℕ → List ℕ
pattern_from zero i start = []
pattern_from (suc n) i start = ((start + 7 * i + i / 256) % 256) ∷ pattern_from n (suc i) start

unfoldable pub pattern : ℕ → ℕ → List ℕ
unfolding pattern_from
pattern n start = pattern_from n 0 start

unfoldable pub reservation_of : ℕ → ReservationId
reservation_of n = record { high = n / 18446744073709551616; low = n % 18446744073709551616 }

unfoldable pub config_from : ℕ → ℕ → ℕ → ℕ → ℕ → ℕ → ℕ → ℕ → ℕ → OpaqueRelayConfig
config_from a b c d e f g h i = record
  { maximum_pending = a
  ; maximum_circuits = b
  ; maximum_circuits_per_peer = c
  ; maximum_queue_bytes = d
  ; maximum_inflight_actions = e
  ; maximum_inflight_actions_per_circuit = f
  ; maximum_inflight_actions_per_peer = g
  ; maximum_bytes_per_circuit = h
  ; accept_timeout_seconds = i
  }

unfoldable pub start_of : List ℕ → ℕ → OpaqueRelayConfig → ℕ → Start
start_of session generation config now =
    record { session = session; generation = generation; config = config; now = now }

unfoldable pub refused : Admission
refused = record { admitted = false; endpoint = []; ticket = no_ticket }

unfoldable pub grant_of : List ℕ → ReservationId → ℕ → ℕ → ℕ → ℕ → Admission
grant_of endpoint id expiry most each total = record
    { admitted = true
    ; endpoint = endpoint
    ; ticket = record
        { reservation_id = id
        ; expires_at = expiry
        ; max_active_circuits = most
        ; max_bytes_per_circuit = each
        ; max_total_bytes = total
        }
    }

unfoldable pub packet_of : List ℕ → ℕ → ℕ → List ℕ → ℕ → Bool → Admission → List ℕ → Call
packet_of source opcode context body now key admission random =
    call_handle (record
        { source = source
        ; opcode = opcode
        ; context = context
        ; body = body
        ; now = now
        ; key_valid = key
        ; admission = admission
        ; random = random
        }) HANDLE_WORDS

-- ---- what is seen of an outcome
-- words two to a number, again and again: sixteen to a number. With the count it says every word
unfoldable pub pairs : ℕ → List ℕ → List ℕ
pairs base [] = []
pairs base (a ∷ []) = a ∷ []
pairs base (a ∷ b ∷ rest) = (a + base * b) ∷ pairs base rest

unfoldable pub pack : List ℕ → List ℕ
unfolding pairs
pack ws =
    pairs 0x10000000000000000000000000000000000000000000000000000000000000000
        (pairs 0x100000000000000000000000000000000 (pairs 0x10000000000000000 (pairs 0x100000000 ws)))

unfoldable pub cause_row : Cause → List ℕ
cause_row c = c.kind ∷ c.first ∷ c.second ∷ []

unfoldable pub word_row : List ℕ → List ℕ
unfolding pack
word_row ws = length ws ∷ pack ws

unfoldable pub answer_row : Outcome → List ℕ
unfolding cause_row word_row
answer_row o = number o.answer ∷ (cause_row (cause_of o.answer) ++ word_row (out_words o.routes))

unfoldable pub bit : Bool → ℕ
bit true = 1
bit false = 0

unfoldable pub status_row : HnsrRuntimeStatus → List ℕ
unfolding bit
status_row s =
    s.generation ∷ bit s.enabled ∷ s.pending_circuits ∷ s.active_circuits ∷ s.queued_bytes
    ∷ s.queued_actions ∷ s.trusted_time_high_water ∷ s.admitted_opens ∷ s.opened_circuits
    ∷ s.bytes_sent ∷ s.bytes_received ∷ s.revoked_work ∷ []

unfoldable pub due_row : Option ℕ → List ℕ
due_row None = 0 ∷ 0 ∷ []
due_row (Some n) = 1 ∷ n ∷ []

unfoldable pub told_row : Told → List ℕ
unfolding status_row due_row
told_row silent = []
told_row (status_is s capacity) = status_row s
told_row (due_is d) = due_row d

-- what `status`, whoever is asked about, and `next_due` say of the world left, and how many ledger records there are
unfoldable pub world_row : World → List ℕ
unfolding told_row machine
world_row w =
    told_row (step w (call_status (1 ∷ []) 0)).told
    ++ told_row (step w call_next_due).told ++ (count is_usage w.ledger ∷ [])

-- ---- the whole state, by ascending key
unfoldable pub peer_number : HnsrPeerId → ℕ
unfolding be_from
peer_number p = be_from 1 (peer_bytes p)

unfoldable pub wide : ReservationId → ℕ
wide r = r.high * 18446744073709551616 + r.low

unfoldable pub rows_from : {A : Type 0} → (A → ℕ) → (A → Bool) → A → (A → List ℕ) → List A → ℕ
    → Option Walked → List (List ℕ)
rows_from key used none row t zero c = []
rows_from key used none row t (suc n) c =
    elim (next key used c t) [
      Some k ↦ row (get_or t k.place none) ∷ rows_from key used none row t n (Some k)
    | None ↦ []
    ]

unfoldable pub pending_row : RelayPending → List ℕ
unfolding peer_number wide
pending_row p =
    1 ∷ p.circuit_id ∷ peer_number p.requester ∷ peer_number p.endpoint ∷ p.requester_context
    ∷ wide p.ticket.reservation_id ∷ p.ticket.expires_at ∷ p.ticket.max_active_circuits
    ∷ p.ticket.max_bytes_per_circuit ∷ p.ticket.max_total_bytes ∷ p.initial_window ∷ p.deadline ∷ []

unfoldable pub circuit_row : RelayCircuit → List ℕ
unfolding peer_number wide
circuit_row c =
    2 ∷ c.circuit_id ∷ peer_number c.requester ∷ peer_number c.endpoint ∷ wide c.reservation_id
    ∷ c.expires_at ∷ c.maximum_bytes ∷ c.maximum_total_bytes ∷ c.requester_credit ∷ c.endpoint_credit
    ∷ c.forwarded_bytes ∷ c.queued_to_requester ∷ c.queued_to_endpoint ∷ []

unfoldable pub usage_key : ReservationUsage → ℕ
unfolding wide
usage_key u = wide u.reservation_id

unfoldable pub usage_row : ReservationUsage → List ℕ
unfolding usage_key
usage_row u = 3 ∷ usage_key u ∷ u.bytes ∷ u.expires_at ∷ []

unfoldable pub action_key : InflightAction → ℕ
action_key a = a.generation * 18446744073709551616 + a.sequence

-- the trace's kinds: 0 Incoming, 1 Opened, 2 Data to requester, 3 Data to endpoint, 4 Control, 5 Close
unfoldable pub kind_code : InflightAction → ℕ
unfolding bit
kind_code a =
    cond (eqb a.kind 2) (2 + bit a.to_endpoint) (cond (eqb a.kind 3) 4 (cond (eqb a.kind 4) 5 a.kind))

unfoldable pub action_row : InflightAction → List ℕ
unfolding peer_number kind_code
action_row a =
    4 ∷ a.generation ∷ a.sequence ∷ a.circuit_id ∷ peer_number a.destination ∷ kind_code a ∷ a.bytes ∷ []

unfoldable pub state_rows : World → List (List ℕ)
unfolding rows_from pending_row circuit_row usage_row usage_key action_row action_key machine
state_rows w =
    (0 ∷ w.runtime.next_action_sequence ∷ [])
    ∷ (rows_from pending_id is_pending no_pending pending_row w.pending (length w.pending) not_yet
    ++ rows_from circuit_id is_circuit no_circuit circuit_row w.circuits (length w.circuits) not_yet
    ++ rows_from usage_key is_usage no_usage usage_row w.ledger (length w.ledger) not_yet
    ++ rows_from action_key is_action no_action action_row w.inflight (length w.inflight) not_yet)

-- ---- a trace: of each item what is seen. `full` asks for the state too
unfoldable pub moved : World → Item → Outcome
unfolding machine
moved w (begin s) = start w s
moved w (item c) = step w c
moved w (poke n) =
    record { world = with_runtime w (with_sequence w.runtime n); answer = Ok tt; routes = []; told = silent }

unfoldable pub seen_of : Outcome → Bool → Bool → List (List ℕ)
unfolding answer_row world_row state_rows machine
seen_of o false false = answer_row o ∷ []
seen_of o true false = answer_row o ∷ world_row o.world ∷ []
seen_of o true true = answer_row o ∷ world_row o.world ∷ state_rows o.world
seen_of o false true = answer_row o ∷ []

pub record Line : Type 0 where
  pub does : Item
  pub seen : List (List ℕ)
  pub status : Bool
  pub state : Bool

unfoldable pub observed : World → List Line → List (List (List ℕ))
unfolding moved seen_of
observed w [] = []
observed w (l ∷ ls) = let o = moved w l.does in seen_of o l.status l.state ∷ observed o.world ls

unfoldable pub recorded : List Line → List (List (List ℕ))
recorded [] = []
recorded (l ∷ ls) = l.seen ∷ recorded ls
'''

def parts(rows, per):
    if not per: return [rows]
    out, part, new = [], [], None
    for r in rows:
        fresh = r['call'].startswith('begin (')
        if len(part) >= per and (fresh or len(part) >= 2 * per or new is None):
            out.append(part); part = []
        elif len(part) >= per and not any(x['call'].startswith('begin (') for x in rows[rows.index(r):]):
            out.append(part); part = []
        if fresh: new = r
        if not part and not fresh and new: part = [new]
        part.append(r)
    return out + [part]

def theorem(n, places, rows):
    out = []
    for i, r in enumerate(rows):
        seen = [listed(r['seen'])]
        if r['status']: seen.append(listed(status_row(r['status'])))
        if r['state']: seen += [listed(x) for x in r['state']]
        status, state = (boolean('1' if r[part] else '0') for part in ('status', 'state'))
        out += [f'-- {r["line"]}', f'l{n}-{i} : Line',
                'unfolding bytes pattern reservation_of config_from start_of refused grant_of packet_of',
                f'l{n}-{i} = record {{ does = {r["call"]}; status = {status}; state = {state}; seen =\n'
                f'      {nested(seen)} }}', '']
    names = [f'l{n}-{i}' for i in range(len(rows))]
    out += [f'lines{n} : List Line', 'unfolding ' + ' '.join(names), f'lines{n} = ' + ' ∷ '.join(names + ['[]']), '',
            f'agrees{n} : observed (lent {places[0]} {places[1]} {places[2]} {places[3]}) lines{n} ≡ recorded lines{n}',
            f'unfolding lines{n} observed recorded lent', f'agrees{n} = refl', '']
    return out

def module(path, places, rows, per):
    out = [f'-- {os.path.basename(path)}. Made by tools/trace2antt.py.',
           'use Rattle.std.specs.Prelude.{◌≡◌, refl, true, false, List, [], ◌∷◌}',
           'use Rattle.hnsr_circuit.specs.Call.{call_acknowledge, call_disconnect, call_revoke_reservation, '
           'call_expire, call_observe_time, call_replace_enabled}',
           'use Rattle.hnsr_circuit.specs.Worked.Cases.{lent}',
           'use Rattle.traces.specs.Help.{Item, begin, item, poke, Line, bytes, pattern, reservation_of, '
           'config_from, start_of, refused, grant_of, packet_of, observed, recorded}', '']
    for n, part in enumerate(parts(rows, per)): out += theorem(n, places, part)
    return '\n'.join(out)

def main():
    args, with_state, per, cut = [], True, None, None
    it = iter(sys.argv[1:])
    for a in it:
        if a == '--skip-state': with_state = False
        elif a == '--per': per = int(next(it))
        elif a == '--cut': cut = int(next(it))
        else: args.append(a)
    repo, out, *files = args
    os.makedirs(f'{out}/crates/traces/src', exist_ok=True)
    os.makedirs(f'{out}/crates/traces/specs', exist_ok=True)
    for c in ('hns_encoding', 'hnsr_body', 'hnsr_circuit'):               # copies: rt follows no link
        for part in ('src', 'specs', 'proofs'):
            shutil.rmtree(f'{out}/crates/{c}/{part}', ignore_errors=True)
            if os.path.isdir(f'{repo}/crates/{c}/{part}'):
                shutil.copytree(f'{repo}/crates/{c}/{part}', f'{out}/crates/{c}/{part}')
    open(f'{out}/crates.txt', 'w').write(
        'hns_encoding:\nhnsr_body: hns_encoding\nhnsr_circuit: hnsr_body hns_encoding\n'
        'traces: hnsr_circuit hnsr_body hns_encoding\n')
    open(f'{out}/crates/traces/src/lib.rt', 'w').write('#![tactic(auto)]\n\npub fn one() -> u64 {\n    1\n}\n')
    S = f'{out}/crates/traces/specs'
    for n in os.listdir(S): os.remove(f'{S}/{n}')
    open(f'{S}/Help.antt', 'w').write(HELP.replace('HANDLE_WORDS', str(HANDLE_WORDS)))
    names, calls = [], 0
    for path in files:
        places, rows = read(path, with_state)
        rows = rows[:cut]
        if max(places) > LIMIT:
            print(f'{path}: tables of {max(places)} places, answers only')
            for r in rows: r['status'] = r['state'] = None
        name = 'T' + os.path.basename(path).split('.')[0].replace('_', '')
        open(f'{S}/{name}.antt', 'w').write(module(path, places, rows, per))
        names.append(name); calls += len(rows)
    open(f'{S}/Lib.antt', 'w').write('pub mod Help\n' + ''.join(f'pub mod {n}\n' for n in names))
    print(len(names), 'traces,', calls, 'calls')
if __name__ == '__main__': main()
