//! Grants that a host keeps.
use crate::fixture::{grant, open, relay, small, START};
use lekchnam_host::{Admission, GrantBuf, HnsrRuntimeError};

#[test]
fn a_grant_that_is_kept_is_the_same() {
    let kept = GrantBuf::try_from(grant(b"e")).expect("a name");
    assert_eq!(kept.as_grant(), grant(b"e"));
    assert_eq!(Admission::from(&kept), Admission::from(grant(b"e")));
    assert_eq!(GrantBuf::try_from(grant(&[7; 129])), Err(HnsrRuntimeError::InvalidPeer));
    let mut relay = relay(small());
    assert!(open(&mut relay, b"r", 1, kept.as_grant()).is_ok());
    assert_eq!(
        relay.pending().map(|pending| (pending.grant, pending.deadline)).collect::<Vec<_>>(),
        [(kept, START + 10)]
    );
}
