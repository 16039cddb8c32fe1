//! One form into another: names, numbers, what is shown, and what is kept.
use lekchnam_host::lent::{ReservationId, StoredPeer};
use lekchnam_host::{
    HnsrActionId, HnsrOpcode, HnsrPacket, HnsrPacketBuf, HnsrPeerId, HnsrRoute, HnsrRouteBuf, HnsrRuntimeError,
    QueuedHnsrRoute, QueuedHnsrRouteBuf, MAXIMUM_PEER,
};
use std::collections::{BTreeMap, HashMap, HashSet};

fn peer(name: &[u8]) -> HnsrPeerId {
    HnsrPeerId::new(name).expect("a good name")
}

#[test]
fn a_name_is_taken_from_any_bytes() {
    let name = "suppli\u{e9}r";
    for made in [
        HnsrPeerId::try_from(name),
        HnsrPeerId::try_from(name.as_bytes()),
        HnsrPeerId::try_from(name.as_bytes().to_vec()),
        HnsrPeerId::try_from(StoredPeer::from(peer(name.as_bytes()))),
        HnsrPeerId::try_from(StoredPeer::from(&peer(name.as_bytes()))),
    ] {
        assert_eq!(made, Ok(peer(name.as_bytes())));
        assert_eq!(made.map(|peer| AsRef::<[u8]>::as_ref(&peer).to_vec()), Ok(name.as_bytes().to_vec()));
    }
    let long = "x".repeat(MAXIMUM_PEER + 1);
    for refused in ["", &long] {
        let bytes = refused.as_bytes();
        for made in [HnsrPeerId::try_from(refused), HnsrPeerId::try_from(bytes), HnsrPeerId::try_from(bytes.to_vec())] {
            assert_eq!(made, Err(HnsrRuntimeError::InvalidPeer));
        }
    }
}

/// A length over the most reads as that, and what stands behind a name is no part of it.
#[test]
fn a_stored_name_is_read_as_the_relay_reads_it() {
    let stored = |len| StoredPeer { len, bytes: [7; MAXIMUM_PEER] };
    assert_eq!(HnsrPeerId::try_from(stored(0)), Err(HnsrRuntimeError::InvalidPeer));
    for (len, read) in
        [(1, 1), (MAXIMUM_PEER, MAXIMUM_PEER), (MAXIMUM_PEER + 1, MAXIMUM_PEER), (usize::MAX, MAXIMUM_PEER)]
    {
        let name = HnsrPeerId::try_from(stored(len)).expect("a name");
        assert_eq!(name, peer(&vec![7; read]));
        assert_eq!(StoredPeer::from(name).bytes[read..], vec![0; MAXIMUM_PEER - read]);
    }
}

#[test]
fn maps_by_name_are_asked_by_bytes() {
    let names: [&[u8]; 4] = [b"a", b"a\0", b"b", &[7; MAXIMUM_PEER]];
    let hashed: HashMap<HnsrPeerId, usize> = names.iter().enumerate().map(|(at, name)| (peer(name), at)).collect();
    let sorted: BTreeMap<HnsrPeerId, usize> = names.iter().enumerate().map(|(at, name)| (peer(name), at)).collect();
    for (at, name) in names.into_iter().enumerate() {
        assert_eq!((hashed.get(name), sorted.get(name)), (Some(&at), Some(&at)));
    }
    assert_eq!((hashed.get(&b"c"[..]), sorted.get(&b""[..])), (None, None));
}

/// Names of one and two bytes: no two look the same, and each is one line.
#[test]
fn names_are_shown_apart() {
    let mut shown = HashSet::new();
    for first in 0..=255_u8 {
        assert!(shown.insert(peer(&[first]).to_string()));
        for second in 0..=255 {
            assert!(shown.insert(peer(&[first, second]).to_string()));
        }
    }
    assert!(shown.iter().all(|text| !text.is_empty() && !text.chars().any(char::is_control)));
    assert_eq!(peer(b"\\xff").to_string(), r"\\xff");
    assert_eq!(peer(b"\xff").to_string(), r"\xff");
    assert_eq!(format!("[{:>4}] [{:<4}]", peer(b"ab"), peer(b"cd")), "[  ab] [cd  ]");
}

#[test]
fn opcodes_are_shown_by_name_and_ordered_by_number() {
    let opcodes: Vec<HnsrOpcode> = (0..=255).map(HnsrOpcode::from).collect();
    assert!(opcodes.windows(2).all(|two| two[0] < two[1]));
    assert_eq!(opcodes.iter().map(ToString::to_string).collect::<HashSet<_>>().len(), 256);
    for opcode in &opcodes[..usize::from(HnsrOpcode::COUNT)] {
        // the name in the code, its words apart
        let named = opcode.to_string().replace('_', "");
        assert_eq!(named, format!("{opcode:?}").to_uppercase());
    }
    assert_eq!(HnsrOpcode::FindNode.to_string(), "FIND_NODE");
    assert_eq!(format!("[{:<6}]", HnsrOpcode::Data), "[DATA  ]");
    assert_eq!(HnsrOpcode::from(255).to_string(), "UNKNOWN(255)");
}

#[test]
fn ids_are_ordered_as_their_bytes() {
    let ids = [
        [0; 16],
        *b"\0\0\0\0\0\0\0\0\0\0\0\0\0\0\0\x01",
        *b"\0\0\0\0\0\0\0\x01\0\0\0\0\0\0\0\0",
        [0x7f; 16],
        [0xff; 16],
    ];
    assert!(ids.windows(2).all(|two| two[0] < two[1] && ReservationId::from(two[0]) < ReservationId::from(two[1])));
    for id in ids {
        let hexadecimal: String = id.iter().map(|byte| format!("{byte:02x}")).collect();
        assert_eq!(ReservationId::from(id).to_string(), hexadecimal);
    }
    let number = |generation, sequence| HnsrActionId { generation, sequence };
    let numbers = [number(0, u64::MAX), number(1, 0), number(1, 9), number(1, 10), number(u64::MAX, 0)];
    assert!(numbers.windows(2).all(|two| two[0] < two[1]));
}

#[test]
fn what_is_kept_is_what_was_lent() {
    let packet = HnsrPacket::new(HnsrOpcode::Data, [1; 8], b"hello").expect("a packet");
    let route = HnsrRoute { destination: peer(b"e"), packet };
    let queued = QueuedHnsrRoute { action_id: HnsrActionId { generation: 1, sequence: 2 }, route };

    let kept = HnsrPacketBuf::from(packet);
    assert_eq!(Ok(kept.clone()), HnsrPacketBuf::new(HnsrOpcode::Data, [1; 8], b"hello".to_vec()));
    assert_eq!((HnsrPacket::from(&kept), kept.as_packet().to_buf()), (packet, kept.clone()));
    assert_eq!(HnsrRoute::from(&HnsrRouteBuf::from(route)), route);
    let kept = QueuedHnsrRouteBuf::from(queued);
    assert_eq!(kept.route, route.to_buf());
    assert_eq!((QueuedHnsrRoute::from(&kept), kept.as_queued()), (queued, queued));

    let refused = |opcode: u8, context, length| HnsrPacketBuf::new(opcode.into(), context, vec![0; length]).err();
    for (opcode, context, length) in [(17, [0; 8], 0), (6, [0; 8], 0), (17, [1; 8], 65_523), (17, [1; 8], 65_524)] {
        let lent = HnsrPacket::new(opcode.into(), context, &vec![0; length]).err();
        assert_eq!(refused(opcode, context, length), lent);
    }
    assert!(refused(17, [0; 8], 0).is_some() && refused(17, [1; 8], 65_524).is_some());
}
