//! The relay's own words, as it sends them.
use crate::fixture::{circuit, grant, open, peer, relay, small, Relay, EXPIRY, START};
use lekchnam_host::body::{CloseBody, ErrorBody};
use lekchnam_host::limits::LONGEST_NOTICE;
use lekchnam_host::{HnsrActionId, HnsrErrorCode, HnsrOpcode, HnsrRuntimeError, Notice, Routes};

/// Reason and detail of each route, and its body's length.
type Said = Vec<(u16, String, usize)>;

/// What the routes of a call say, each of which is a CLOSE or an ERROR.
fn said(routes: Result<Routes<'_>, HnsrRuntimeError>) -> Said {
    let said = |body: &[u8], reason, detail: &str| (reason, detail.to_owned(), body.len());
    let routes = routes.expect("the call is taken");
    routes
        .iter()
        .map(|queued| match queued.route.packet {
            packet if packet.opcode == HnsrOpcode::Close => {
                let close = CloseBody::decode(packet.body).expect("a CLOSE");
                said(packet.body, close.reason, close.detail)
            }
            packet => {
                assert_eq!(packet.opcode, HnsrOpcode::Error);
                let error = ErrorBody::decode(packet.body).expect("an ERROR");
                said(packet.body, error.reason, error.detail)
            }
        })
        .collect()
}

/// A relay with a circuit, whose OPENED is route 2, and one with an OPEN that waits, whose INCOMING is route 1.
fn with_circuit() -> Relay {
    let mut relay = relay(small());
    circuit(&mut relay, b"r", b"e", 1);
    relay
}

fn with_open() -> Relay {
    let mut relay = relay(small());
    open(&mut relay, b"r", 1, grant(b"e")).expect("an OPEN");
    relay
}

#[test]
fn the_relay_says_each_of_the_seven() {
    let number = |sequence| HnsrActionId { generation: 1, sequence };
    let ended: [(Notice, usize, Said); 10] = [
        (Notice::PeerDisconnected, 2, said(with_circuit().disconnect(&peer(b"e")))),
        (Notice::PeerDisconnected, 1, said(with_open().disconnect(&peer(b"e")))),
        (Notice::ReservationRevoked, 2, said(with_circuit().revoke_reservation([5; 16]))),
        (Notice::ReservationRevoked, 2, said(with_open().revoke_reservation([5; 16]))),
        (Notice::AcceptanceExpired, 2, said(with_open().expire(START + 10))),
        (Notice::TicketExpired, 2, said(with_circuit().expire(EXPIRY))),
        (Notice::RelayDisabled, 2, said(with_circuit().replace_enabled(1, false))),
        (Notice::RelayDisabled, 2, said(with_open().replace_enabled(1, false))),
        (Notice::EndpointWriteFailed, 1, said(with_open().acknowledge(number(1), false))),
        (Notice::OuterWriteFailed, 2, said(with_circuit().acknowledge(number(2), false))),
    ];
    for (notice, routes, said) in &ended {
        assert_eq!(said.len(), *routes, "{notice:?}");
        for (reason, detail, length) in said {
            assert_eq!((*reason, &detail[..]), (notice.reason().into(), notice.detail()));
            assert_eq!(Notice::of(*reason, detail), Some(*notice));
            assert!(*length <= LONGEST_NOTICE);
        }
    }
    let longest = ended.iter().flat_map(|(_, _, said)| said).map(|(_, _, length)| *length).max();
    assert_eq!(longest, Some(LONGEST_NOTICE));
    assert!(Notice::ALL.iter().all(|notice| ended.iter().any(|(seen, ..)| seen == notice)));
}

#[test]
fn a_notice_is_known_by_both() {
    for notice in Notice::ALL {
        let reason = u16::from(notice.reason());
        assert_eq!(Notice::of(reason, &notice.detail()[1..]), None);
        assert_eq!(Notice::of(reason ^ 0x100, notice.detail()), None);
    }
}

#[test]
fn reasons_have_their_numbers() {
    for number in 0..=u16::MAX {
        match HnsrErrorCode::try_from(number) {
            Ok(code) => assert_eq!((u16::from(code), number < 18), (number, true)),
            Err(unknown) => {
                assert_eq!((unknown.number(), number >= 18), (number, true));
                assert_eq!(unknown.to_string(), "invalid HNSR value: unknown HNSR error code");
            }
        }
    }
    let named = [
        (0, HnsrErrorCode::Normal),
        (6, HnsrErrorCode::Expired),
        (8, HnsrErrorCode::Timeout),
        (11, HnsrErrorCode::EndpointGone),
        (15, HnsrErrorCode::Shutdown),
        (17, HnsrErrorCode::ByteLimit),
    ];
    for (number, code) in named {
        assert_eq!(HnsrErrorCode::try_from(number), Ok(code));
    }
}
