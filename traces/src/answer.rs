//! What a call answers and what is then told from outside: the part of a line behind ` => `.
use crate::cause::Cause;
use crate::fields::Fields;
use lekchnam_host::{HnsrRuntimeError, HnsrRuntimeStatus};
use std::fmt::{Display, Write};

/// How many words are listed unless all are asked for.
const LISTED: usize = 256;

/// The names of `status`' fields, in the order of `After::status`.
pub const STATUS: [&str; 12] = [
    "generation",
    "enabled",
    "pending_circuits",
    "active_circuits",
    "queued_bytes",
    "queued_actions",
    "trusted_time_high_water",
    "admitted_opens",
    "opened_circuits",
    "bytes_sent",
    "bytes_received",
    "revoked_work",
];

/// What `status` tells, in the same order.
pub fn status_numbers(s: &HnsrRuntimeStatus) -> [u64; STATUS.len()] {
    [
        s.generation,
        s.enabled.into(),
        s.pending_circuits as u64,
        s.active_circuits as u64,
        s.queued_bytes as u64,
        s.queued_actions as u64,
        s.trusted_time_high_water,
        s.admitted_opens,
        s.opened_circuits,
        s.bytes_sent,
        s.bytes_received,
        s.revoked_work,
    ]
}

#[derive(Clone, Debug, Eq, PartialEq)]
pub struct Answer {
    /// The number (ANS.5); 0 is taken.
    pub number: u8,
    pub cause: Cause,
    pub words: Words,
    /// None until a `new` is taken.
    pub after: Option<After>,
}

/// Output words: how many, their hash, and all of them where they are listed.
#[derive(Clone, Debug, Eq, PartialEq)]
pub struct Words {
    pub count: usize,
    pub hash: u64,
    pub listed: Option<Vec<u32>>,
}

/// What is told after a call.
#[derive(Clone, Debug, Eq, PartialEq)]
pub struct After {
    pub status: [u64; STATUS.len()],
    /// Next due.
    pub due: Option<u64>,
    /// How many ledger records there are.
    pub ledger: usize,
}

impl Words {
    pub fn of(list: Vec<u32>) -> Self {
        Self { count: list.len(), hash: fnv(&list), listed: Some(list) }
    }

    /// With the words listed where they are few, or all are asked for.
    fn text(&self, full: bool) -> String {
        let shown = self.listed.as_deref().filter(|list| full || list.len() <= LISTED).unwrap_or_default();
        shown.iter().fold(format!("{} {:016x}", self.count, self.hash), |mut text, word| {
            let _ = write!(text, " {word:08x}");
            text
        })
    }

    fn difference(&self, came: &Self) -> Option<String> {
        let listed = self.listed.iter().flatten().zip(came.listed.iter().flatten()).enumerate();
        let word = |(at, (expected, came)): (usize, (&u32, &u32))| {
            differs(&format!("word {at}"), &format!("{expected:08x}"), &format!("{came:08x}"))
        };
        differs("count of words", &self.count, &came.count)
            .or_else(|| listed.filter(|(_, (expected, came))| expected != came).find_map(word))
            .or_else(|| differs("hash of words", &format!("{:016x}", self.hash), &format!("{:016x}", came.hash)))
    }

    fn parse(fields: &mut Fields<'_>) -> Result<Self, String> {
        let (count, hash) = (fields.number("N")?, fields.hex("HASH")?);
        let listed = match fields.left() {
            0 if count > LISTED => None,
            left if left == count => {
                Some((0..count).map(|_| Ok(fields.hex("WORDS")? as u32)).collect::<Result<_, String>>()?)
            }
            left => return Err(format!("{left} words are listed, and N is {count}")),
        };
        Ok(Self { count, hash, listed })
    }
}

/// FNV-1a, 64 bits, over the words' bytes, lowest byte first.
pub fn fnv(words: &[u32]) -> u64 {
    words
        .iter()
        .flat_map(|word| word.to_le_bytes())
        .fold(0xcbf2_9ce4_8422_2325, |hash, byte| (hash ^ u64::from(byte)).wrapping_mul(0x0000_0100_0000_01b3))
}

impl After {
    fn text(&self) -> String {
        let due = due_text(self.due);
        format!("{} {due} {}", self.status.map(|field| field.to_string()).join(" "), self.ledger)
    }

    fn difference(&self, came: &Self) -> Option<String> {
        let status = STATUS.iter().zip(self.status.iter().zip(&came.status));
        status
            .filter_map(|(name, (expected, came))| differs(name, expected, came))
            .next()
            .or_else(|| differs("next due", &due_text(self.due), &due_text(came.due)))
            .or_else(|| differs("ledger records", &self.ledger, &came.ledger))
    }

    fn parse(text: &str) -> Result<Option<Self>, String> {
        if text == "-" {
            return Ok(None);
        }
        let mut fields = Fields::of(text);
        let mut status = [0; STATUS.len()];
        for (field, name) in status.iter_mut().zip(STATUS) {
            *field = fields.number(name)?;
        }
        let due = match fields.next("DUE")? {
            "-" => None,
            due => Some(due.parse().map_err(|_| format!("DUE is not a number, or too large: {due:?}"))?),
        };
        let ledger = fields.number("LEDGER")?;
        fields.end()?;
        Ok(Some(Self { status, due, ledger }))
    }
}

impl Answer {
    /// From the output words of a call that is taken, or the refusal.
    pub fn of(answer: Result<Vec<u32>, HnsrRuntimeError>, after: Option<After>) -> Self {
        let number = answer.as_ref().err().map_or(0, |refusal| refusal.number() as u8);
        let (cause, words) = match answer {
            Ok(words) => (Cause::None, words),
            Err(HnsrRuntimeError::Protocol(error)) => (error.into(), Vec::new()),
            Err(_) => (Cause::None, Vec::new()),
        };
        Self { number, cause, words: Words::of(words), after }
    }

    /// `ANSWER CAUSE N HASH WORDS... | STATUS... DUE LEDGER`; `full`: however many words there are, they are listed.
    pub fn text(&self, full: bool) -> String {
        let after = self.after.as_ref().map_or("-".to_owned(), After::text);
        format!("{} {} {} | {after}", self.number, self.cause, self.words.text(full))
    }

    /// Reads what `text` writes. What would not be written so is refused.
    pub fn parse(text: &str) -> Result<Self, String> {
        let (said, after) = text.split_once(" | ").ok_or("no | before STATUS")?;
        let mut fields = Fields::of(said);
        let answer = Self {
            number: fields.number("ANSWER")?,
            cause: Cause::parse(fields.next("CAUSE")?)?,
            words: Words::parse(&mut fields)?,
            after: After::parse(after)?,
        };
        if answer.text(true) != text {
            return Err("the answer reads as another than it is".into());
        }
        Ok(answer)
    }

    /// Where another answer first differs from this one: the field, what is expected there and what came.
    pub fn difference(&self, came: &Self) -> Option<String> {
        differs("answer", &self.number, &came.number)
            .or_else(|| differs("cause", &self.cause, &came.cause))
            .or_else(|| self.words.difference(&came.words))
            .or_else(|| match (&self.after, &came.after) {
                (Some(expected), Some(came)) => expected.difference(came),
                (None, None) => None,
                (expected, _) => {
                    let relay = |there| if there { "a relay" } else { "no relay" };
                    differs("after", &relay(expected.is_some()), &relay(expected.is_none()))
                }
            })
    }
}

fn due_text(due: Option<u64>) -> String {
    due.map_or("-".to_owned(), |due| due.to_string())
}

/// What is said where two values of one field differ.
fn differs<Value: Display + PartialEq>(name: &str, expected: &Value, came: &Value) -> Option<String> {
    (expected != came).then(|| format!("{name}: expected {expected}, came {came}"))
}
