//! Routes, read from output words.
use crate::fixture::{self, circuit, grant, open, peer, relay, say, small, WINDOW};
use lekchnam_host::body::{CloseBody, ErrorBody, IncomingBody, OpenedBody};
use lekchnam_host::limits::{ADDRESS_WORDS, MAX_BODY_SIZE, MAX_DATA_SIZE, PEER_WORDS};
use lekchnam_host::{
    HnsrActionId, HnsrOpcode, HnsrPacket, HnsrRoute, OpaqueRelayConfig, QueuedHnsrRoute, Routes, MAXIMUM_PEER,
};

/// Bytes that are all different as far as that goes.
fn bytes(length: usize) -> Vec<u8> {
    (0..length).map(|at| (at * 7 + at / 256 + 1) as u8).collect()
}

/// Output words (OUT), a second time.
fn words(queued: &QueuedHnsrRoute<'_>) -> Vec<u32> {
    let pack = |bytes: &[u8], count: usize| -> Vec<u32> {
        let byte = |at: usize| u32::from(bytes.get(at).copied().unwrap_or(0));
        let word = |at: usize| byte(at) + byte(at + 1) * 0x100 + byte(at + 2) * 0x1_0000 + byte(at + 3) * 0x100_0000;
        (0..count).map(|place| word(4 * place)).collect()
    };
    let number = |number: u64| vec![(number >> 32) as u32, (number & 0xffff_ffff) as u32];
    let (name, packet) = (queued.route.destination.as_bytes(), queued.route.packet);
    [
        vec![0x1000_0000 + name.len() as u32],
        number(queued.action_id.generation),
        number(queued.action_id.sequence),
        pack(name, PEER_WORDS),
        vec![0x2000_0000 + u32::from(u8::from(packet.opcode)) * 0x1_0000 + packet.body.len() as u32],
        pack(&packet.context_id, 2),
        pack(packet.body, packet.body.len().div_ceil(4)),
    ]
    .concat()
}

fn route<'a>(name: &[u8], body: &'a [u8]) -> QueuedHnsrRoute<'a> {
    let action_id = HnsrActionId { generation: 0x0102_0304_0506_0708, sequence: u64::MAX - 1 };
    let packet = HnsrPacket { opcode: HnsrOpcode::Data, context_id: *b"\x00context", body };
    QueuedHnsrRoute { action_id, route: HnsrRoute { destination: peer(name), packet } }
}

#[test]
fn what_was_written_is_read_back() {
    for name_length in [1, 2, 3, 4, 5, MAXIMUM_PEER - 1, MAXIMUM_PEER] {
        for body_length in [0, 1, 2, 3, 4, 5, 6, 7, 131, MAX_DATA_SIZE - 1, MAX_DATA_SIZE, MAX_BODY_SIZE] {
            let (name, body) = (bytes(name_length), bytes(body_length));
            let written = route(&name, &body);
            let words = words(&written);
            let routes = Routes::new(&words);
            assert_eq!(routes.iter().collect::<Vec<_>>(), [written]);
            assert_eq!((routes.len(), routes.is_empty(), routes.words()), (1, false, &words[..]));
        }
    }
}

#[test]
fn routes_follow_one_another() {
    let (first, second, third) = (bytes(5), bytes(0), bytes(8));
    let written = [route(b"a", &first), route(b"bc", &second), route(b"def", &third)];
    let words: Vec<u32> = written.iter().flat_map(words).collect();
    let mut read = Vec::new();
    for queued in Routes::new(&words) {
        read.push(queued);
    }
    assert_eq!(read, written);
    assert_eq!(Routes::new(&words).to_vec(), written.map(QueuedHnsrRoute::to_buf));
    assert_eq!(Routes::new(&words).len(), 3);
    assert!(Routes::default().is_empty());
}

/// Any words can be read. What is no whole route ends them.
#[test]
fn words_that_are_no_route_end_them() {
    let body = bytes(6);
    let whole = words(&route(b"a", &body));
    for length in 0..whole.len() {
        assert!(Routes::new(&whole[..length]).is_empty(), "{length} words");
    }
    for (at, word) in [(0, 0), (0, 0x2000_0001), (ADDRESS_WORDS, 0x1011_0006), (ADDRESS_WORDS, 0x2011_ffff)] {
        let mut changed = whole.clone();
        changed[at] = word;
        assert!(Routes::new(&changed).is_empty(), "word {at} is {word:x}");
    }
    let followed = [&whole[..], &[7, 7, 7]].concat();
    assert_eq!(Routes::new(&followed).len(), 1);
    // a length over the most cannot be read past the name
    let mut long = whole.clone();
    long[0] = 0x1000_00ff;
    assert_eq!(Routes::new(&long).iter().next().expect("a route").route.destination.as_bytes().len(), MAXIMUM_PEER);
    assert!(Routes::new(&vec![u32::MAX; 200]).is_empty());
}

#[test]
fn data_passes_unchanged_whatever_its_length_and_the_names() {
    let config = OpaqueRelayConfig { maximum_circuits: 4, maximum_pending: 4, ..small() };
    for (requester, endpoint) in [(1, MAXIMUM_PEER), (MAXIMUM_PEER, 1), (MAXIMUM_PEER - 1, MAXIMUM_PEER), (2, 3)] {
        let (requester, endpoint) = (bytes(requester), [&[9], &bytes(endpoint)[1..]].concat());
        for length in (1..=5).chain(MAX_DATA_SIZE - 3..=MAX_DATA_SIZE) {
            let mut relay = relay(config);
            let id = circuit(&mut relay, &requester, &endpoint, 1);
            let body = bytes(length);
            let routes = say(&mut relay, &requester, HnsrOpcode::Data, id, &body).expect("DATA");
            let expected = QueuedHnsrRoute {
                action_id: HnsrActionId { generation: 1, sequence: 3 },
                route: HnsrRoute {
                    destination: peer(&endpoint),
                    packet: HnsrPacket { opcode: HnsrOpcode::Data, context_id: id.to_be_bytes(), body: &body },
                },
            };
            assert_eq!(routes.iter().collect::<Vec<_>>(), [expected]);
            assert_eq!(routes.words(), words(&expected));
        }
    }
}

/// The only route of a call.
fn only(routes: Routes<'_>) -> QueuedHnsrRoute<'_> {
    assert_eq!(routes.len(), 1);
    routes.iter().next().expect("one route")
}

#[test]
fn opening_a_circuit_sends_incoming_and_opened() {
    let mut relay = relay(small());
    let id = open(&mut relay, b"r", 9, grant(b"e")).expect("an OPEN");
    let incoming = only(relay.routes());
    assert_eq!((incoming.route.destination, incoming.action_id.sequence), (peer(b"e"), 1));
    assert_eq!(incoming.route.packet.opcode, HnsrOpcode::Incoming);
    let body = IncomingBody::decode(incoming.route.packet.body).expect("a good body");
    assert_eq!((body.open_request_id, body.initial_window), (9_u64.to_be_bytes(), WINDOW));

    let opened = only(say(&mut relay, b"e", HnsrOpcode::Accept, id, &fixture::accept_body()).expect("an ACCEPT"));
    assert_eq!((opened.route.destination, opened.action_id.sequence), (peer(b"r"), 2));
    assert_eq!((opened.route.packet.opcode, opened.route.packet.context_id), (HnsrOpcode::Opened, 9_u64.to_be_bytes()));
    let body = OpenedBody::decode(opened.route.packet.body).expect("a good body");
    assert_eq!((body.circuit_id, body.accepted_window), (id.to_be_bytes(), WINDOW));
}

/// Reason and detail are those of NOTICE; a pending record comes before a circuit, the requester before the endpoint.
#[test]
fn ending_tells_both_sides_why() {
    let mut relay = relay(small());
    circuit(&mut relay, b"r", b"e", 1);
    open(&mut relay, b"r", 2, grant(b"e")).expect("an OPEN");
    let routes = relay.expire(fixture::EXPIRY).expect("the clock moves");
    let told: Vec<_> = routes.iter().map(|queued| (queued.route.destination, queued.route.packet)).collect();
    let error = ErrorBody::decode(told[0].1.body).expect("a good body");
    assert_eq!((error.reason, error.detail), (8, "endpoint acceptance expired"));
    let close = CloseBody::decode(told[3].1.body).expect("a good body");
    assert_eq!((close.reason, close.detail), (6, "relay ticket expired"));
    let to: Vec<_> = told.iter().map(|(to, packet)| (to.as_bytes(), packet.opcode, packet.context_id[7])).collect();
    let expected: [(&[u8], HnsrOpcode, u8); 4] = [
        (b"r", HnsrOpcode::Error, 2),
        (b"e", HnsrOpcode::Close, 2),
        (b"r", HnsrOpcode::Close, 1),
        (b"e", HnsrOpcode::Close, 1),
    ];
    assert_eq!(to, expected);
}
