//! The format: lines are read back as they are written, and a damaged one is refused with its number.
use lekchnam_host::limits::{MAX_BODY_SIZE, MAX_DATA_SIZE};
use lekchnam_traces::bytes::{body_bytes, body_text, hex, pattern, unhex};
use lekchnam_traces::file::{Fault, Places, Writer, read};
use lekchnam_traces::{Answer, Call, Cause, Config, Grant, Words};

const ID: [u8; 8] = [1, 2, 3, 4, 5, 6, 7, 0xff];

/// Every limit is another number.
fn config() -> Config {
    Config {
        maximum_pending: 2,
        maximum_circuits: 3,
        maximum_circuits_per_peer: 4,
        maximum_queue_bytes: 5,
        maximum_inflight_actions: 9,
        maximum_inflight_actions_per_circuit: 7,
        maximum_inflight_actions_per_peer: 8,
        maximum_bytes_per_circuit: u64::MAX,
        accept_timeout_seconds: 10,
    }
}

fn grant() -> Grant {
    Grant {
        endpoint: Vec::new(),
        reservation_id: [2; 16],
        expires_at: u64::MAX,
        max_active_circuits: u16::MAX,
        max_bytes_per_circuit: 0,
        max_total_bytes: 1,
    }
}

fn packet(body: Vec<u8>, admission: Option<Grant>) -> Call {
    Call::Handle {
        source: vec![0],
        opcode: 255,
        context: ID,
        body,
        now: 0,
        key_valid: true,
        admission,
        random: ID.to_vec(),
    }
}

fn calls() -> Vec<Call> {
    vec![
        Call::New { session: [7; 16], generation: u64::MAX, config: config(), now: u64::MAX },
        packet(Vec::new(), None),
        packet(vec![0xab], Some(grant())),
        packet(pattern(MAX_BODY_SIZE + 1, 255), None),
        packet(pattern(23, 1), None),
        Call::Acknowledge { generation: 1, sequence: u64::MAX, delivered: false },
        Call::Disconnect { peer: Vec::new() },
        Call::Revoke { reservation: [0; 16] },
        Call::Expire { now: u64::MAX },
        Call::Observe { now: 0 },
        Call::Replace { expected: 0, enabled: true },
        Call::Poke { sequence: u64::MAX },
    ]
}

#[test]
fn calls_read_back() {
    for call in calls() {
        for class in ['d', 'e', 'g', 'o', 'p'] {
            assert_eq!(Call::parse(&call.text(class)), Ok((class, call.clone())));
        }
    }
}

#[test]
fn answers_read_back() {
    for text in [
        "0 - 0 cbf29ce484222325 | -",
        "0 - 2 0123456789abcdef 00000001 ffffffff | 1 1 2 3 4 5 6 7 8 9 10 11 - 0",
        "0 - 257 0123456789abcdef | 18446744073709551615 0 2 3 4 5 6 7 8 9 10 11 18446744073709551615 3",
        "1 end:99:1 0 cbf29ce484222325 | -",
        "1 trailing:5 0 cbf29ce484222325 | -",
        "1 invalid:HNSR_detail_is_not_UTF-8 0 cbf29ce484222325 | -",
        "1 large:65536:65535 0 cbf29ce484222325 | -",
        "1 admission 0 cbf29ce484222325 | -",
    ] {
        assert_eq!(Answer::parse(text).map(|answer| answer.text(false)), Ok(text.to_owned()));
    }
}

#[test]
fn few_words_are_listed_and_many_are_hashed() {
    let answer = |count| Answer { number: 0, cause: Cause::None, words: Words::of(vec![7; count]), after: None };
    for (count, full, listed) in [(256, false, 256), (257, false, 0), (257, true, 257)] {
        let text = answer(count).text(full);
        assert_eq!(text.matches(" 00000007").count(), listed);
        assert_eq!(answer(count).difference(&Answer::parse(&text).unwrap()), None);
    }
}

#[test]
fn bytes_read_back() {
    for bytes in [vec![], vec![0], pattern(24, 5), pattern(MAX_DATA_SIZE, 0), vec![9; 24]] {
        assert_eq!(body_bytes(&body_text(&bytes)), Ok(bytes.clone()));
        assert_eq!(unhex(&hex(&bytes)), Ok(bytes));
    }
    assert_eq!(body_text(&pattern(24, 5)), "@24:5");
    assert_eq!(pattern(258, 3)[255..], [(3 + 7 * 255) as u8, (3 + 7 * 256 + 1) as u8, (3 + 7 * 257 + 1) as u8]);
}

/// A trace of three calls, with the state behind the last.
fn text() -> String {
    let calls = calls();
    let told = Answer::parse("0 - 0 cbf29ce484222325 | 1 1 0 0 0 0 100 0 0 0 0 0 - 0").unwrap();
    let mut trace = Writer::new("a trace", Places { pending: 2, circuits: 3, actions: 9, ledger: 1 }, false);
    for call in [&calls[0], &calls[5], &calls[9]] {
        trace.call('d', call, &told);
    }
    let ledger = format!("#ledger {} 5 1000", hex(&[2; 16]));
    trace.text() + &["#state next_sequence 4", &ledger, "#action 1 3 0102030405060708 61 5 0"].join("\n")
}

/// The trace with one line changed.
fn changed(number: usize, old: &str, new: &str) -> String {
    let mut lines: Vec<String> = text().lines().map(str::to_owned).collect();
    assert!(lines[number - 1].contains(old), "{old} is not in line {number}");
    lines[number - 1] = lines[number - 1].replace(old, new);
    lines.join("\n")
}

fn fault(text: &str) -> Fault {
    read(text).expect_err("what is no trace is refused")
}

#[test]
fn traces_are_read() {
    let traces = read(&text()).unwrap();
    assert_eq!(traces.len(), 1);
    assert_eq!((traces[0].places.ledger, traces[0].lines.len()), (1, 3));
    assert_eq!(traces[0].lines[2].number, 5);
    assert_eq!(traces[0].lines[2].state.as_ref().map(Vec::len), Some(3));
    assert_eq!(read(&format!("{}\n{}", text(), text())).unwrap().len(), 2);
}

#[test]
fn a_damaged_line_is_refused_with_its_number() {
    for (number, old, new) in [
        (2, "places 2 3 9 1", "places 2 3 9"),
        (2, "places 2 3 9 1", "places 2 3 9 x"),
        (3, "new d ", "new x "),
        (3, "new d 07", "new d 7"),
        (3, " 4 5 9 7 8 ", " 65536 5 9 7 8 "),
        (4, "acknowledge", "acknowledged"),
        (4, "acknowledge d 1 ", "acknowledge d 01 "),
        (4, "18446744073709551615 0 =>", "18446744073709551616 0 =>"),
        (4, "18446744073709551615 0 =>", "18446744073709551615 2 =>"),
        (4, "18446744073709551615 0 =>", "18446744073709551615 0 0 =>"),
        (5, " => 0 -", " = 0 -"),
        (5, " => 0 -", " => 256 -"),
        (5, " => 0 -", " => 0 why"),
        (5, " => 0 - 0 ", " => 0 - 1 "),
        (5, "cbf29ce484222325 |", "cbf29ce48422232 |"),
        (5, "cbf29ce484222325 |", "cbf29ce484222325"),
        (5, "0 0 0 - 0", "0 0 0 - "),
        (6, "#state next_sequence 4", "#state next_sequence four"),
        (7, "#ledger 02", "#ledger 2"),
        (8, " 61 5 0", " 61 5"),
    ] {
        assert_eq!(fault(&changed(number, old, new)).line, number, "{new}");
    }
}

#[test]
fn what_is_no_trace_is_refused() {
    assert_eq!(fault("").reason, "no trace is here");
    assert_eq!(fault("# only a comment\n").line, 1);
    assert_eq!(fault(&changed(2, "places 2 3 9 1", "#")).reason, "a call before `places`");
    assert_eq!(fault(&changed(3, "new d", "# new d")).reason, "a call before a `new` that is taken");
    assert_eq!(fault(&changed(6, "#state next_sequence 4", "#")).line, 7);
    assert_eq!(
        fault(&changed(7, "#ledger", "#state next_sequence 4\n#ledger")).reason,
        "a second state behind one call"
    );
}
