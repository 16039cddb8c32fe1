//! The library beyond the domain (DOMAIN.4): a small part of what the command `beyond` does.
use lekchnam_host::HnsrRuntimeError::{CorruptSnapshot, LedgerFull, NoQueuedData};
use lekchnam_traces::beyond::{Due, Number, Pair, beyond};

const CALLS: u64 = 20_000;

/// Every number up to the last but those two that no call answers.
#[test]
fn every_answer_is_met_and_nothing_is_wrong() {
    let answers = beyond(1, CALLS).unwrap_or_else(|wrong| panic!("{wrong}"));
    for number in 0..=LedgerFull.number() {
        let never = [NoQueuedData, CorruptSnapshot].map(|refusal| refusal.number()).contains(&number);
        assert_eq!(answers.of(number as u8) == 0, never, "{number}: {answers}");
    }
    for number in Number::ALL {
        assert!(answers.over(number) > CALLS / 5, "few numbers are {number:?}: {answers}");
    }
    for due in Due::ALL {
        assert!(answers.due(due) > CALLS / 100, "next due seldom goes by {due:?}: {answers}");
    }
    for pair in Pair::ALL {
        for told in pair.expected() {
            let times = answers.capacity(pair, *told);
            assert!(times > CALLS / 500, "{times} times {told:?} is told of {pair:?}: {answers}");
        }
    }
    println!("compared with a second reading: {CALLS} calls beyond the domain");
}
