//! The private state after a call, records by ascending key, and its lines.
use crate::Config;
use crate::bytes::hex;
use crate::fields::Fields;

#[derive(Clone, Debug, Eq, PartialEq)]
pub struct Pending {
    pub id: [u8; 8],
    pub requester: Vec<u8>,
    pub endpoint: Vec<u8>,
    pub requester_context: [u8; 8],
    pub reservation_id: [u8; 16],
    pub expires_at: u64,
    pub max_active_circuits: u16,
    pub max_bytes_per_circuit: u64,
    pub max_total_bytes: u64,
    pub initial_window: u32,
    pub deadline: u64,
}

#[derive(Clone, Debug, Eq, PartialEq)]
pub struct Circuit {
    pub id: [u8; 8],
    pub requester: Vec<u8>,
    pub endpoint: Vec<u8>,
    pub reservation_id: [u8; 16],
    pub expires_at: u64,
    pub maximum_bytes: u64,
    pub maximum_total_bytes: u64,
    pub requester_credit: u32,
    pub endpoint_credit: u32,
    pub forwarded_bytes: u64,
    pub queued_to_requester: usize,
    pub queued_to_endpoint: usize,
}

/// A ledger record.
#[derive(Clone, Debug, Eq, PartialEq)]
pub struct Usage {
    pub reservation_id: [u8; 16],
    pub bytes: u64,
    pub expires_at: u64,
}

#[derive(Clone, Debug, Eq, PartialEq)]
pub struct Action {
    pub generation: u64,
    pub sequence: u64,
    pub circuit_id: [u8; 8],
    pub destination: Vec<u8>,
    pub kind: Kind,
    pub bytes: usize,
}

/// What an action is for. The number is the trace's.
#[derive(Clone, Copy, Debug, Eq, Ord, PartialEq, PartialOrd)]
#[repr(u8)]
pub enum Kind {
    Incoming = 0,
    Opened = 1,
    DataToRequester = 2,
    DataToEndpoint = 3,
    Control = 4,
    Close = 5,
}

#[derive(Clone, Debug, Eq, PartialEq)]
pub struct State {
    pub session: [u8; 16],
    pub generation: u64,
    pub enabled: bool,
    pub high_water: u64,
    pub config: Config,
    pub next_sequence: u64,
    /// admitted_opens, opened_circuits, bytes_sent, bytes_received, revoked_work
    pub counters: [u64; 5],
    pub pending: Vec<Pending>,
    pub circuits: Vec<Circuit>,
    pub ledger: Vec<Usage>,
    pub actions: Vec<Action>,
}

impl State {
    /// Its lines in a trace, the next sequence number first.
    pub fn lines(&self) -> Vec<String> {
        let mut lines = vec![format!("#state next_sequence {}", self.next_sequence)];
        lines.extend(self.pending.iter().map(Pending::line));
        lines.extend(self.circuits.iter().map(Circuit::line));
        lines.extend(self.ledger.iter().map(Usage::line));
        lines.extend(self.actions.iter().map(Action::line));
        lines
    }

    /// Where another state first differs from this one: what is expected there and what came.
    pub fn difference(&self, came: &Self) -> Option<String> {
        first_difference(&self.runtime_lines(), &came.runtime_lines())
            .or_else(|| first_difference(&self.lines(), &came.lines()))
            .map(|what| format!("state: {what}"))
    }

    /// What no line of a trace says.
    fn runtime_lines(&self) -> Vec<String> {
        vec![
            format!("session {}", hex(&self.session)),
            format!("generation {}", self.generation),
            format!("enabled {}", self.enabled),
            format!("trusted_time_high_water {}", self.high_water),
            format!("{:?}", self.config),
            format!("counters {:?}", self.counters),
        ]
    }

    /// How many pending records and circuits there are.
    pub fn records(&self) -> usize {
        self.pending.len() + self.circuits.len()
    }
}

impl Pending {
    fn line(&self) -> String {
        let ids = [&self.id[..], &self.requester, &self.endpoint, &self.requester_context, &self.reservation_id];
        let ticket =
            [self.expires_at, self.max_active_circuits.into(), self.max_bytes_per_circuit, self.max_total_bytes];
        let (ids, ticket) = (ids.map(hex).join(" "), ticket.map(|term| term.to_string()).join(" "));
        format!("#pending {ids} {ticket} {} {}", self.initial_window, self.deadline)
    }
}

impl Circuit {
    fn line(&self) -> String {
        let ids = [&self.id[..], &self.requester, &self.endpoint, &self.reservation_id].map(hex).join(" ");
        let limits = format!("{} {} {}", self.expires_at, self.maximum_bytes, self.maximum_total_bytes);
        let counts = format!("{} {} {}", self.requester_credit, self.endpoint_credit, self.forwarded_bytes);
        format!("#circuit {ids} {limits} {counts} {} {}", self.queued_to_requester, self.queued_to_endpoint)
    }
}

impl Usage {
    fn line(&self) -> String {
        format!("#ledger {} {} {}", hex(&self.reservation_id), self.bytes, self.expires_at)
    }
}

impl Action {
    fn line(&self) -> String {
        let (circuit, destination) = (hex(&self.circuit_id), hex(&self.destination));
        format!(
            "#action {} {} {circuit} {destination} {} {}",
            self.generation, self.sequence, self.kind as u8, self.bytes
        )
    }
}

/// The first of some lines that differs.
pub fn first_difference(expected: &[String], came: &[String]) -> Option<String> {
    (0..expected.len().max(came.len())).find(|at| expected.get(*at) != came.get(*at)).map(|at| {
        let line = |lines: &[String]| lines.get(at).map_or("nothing more".to_owned(), String::clone);
        format!("expected {}, came {}", line(expected), line(came))
    })
}

/// What the lines begin with, and their fields behind that: `b` bytes, `n` a number.
const FORMS: [(&str, &str); 5] = [
    ("#state next_sequence ", "n"),
    ("#pending ", "bbbbbnnnnnn"),
    ("#circuit ", "bbbbnnnnnnnn"),
    ("#ledger ", "bnn"),
    ("#action ", "nnbbnn"),
];

/// Whether a line is the first of a state, if it is of a state at all. What begins as such a line and is none is
/// refused.
pub fn line_of_state(line: &str) -> Result<Option<bool>, String> {
    let Some((head, form)) = FORMS.iter().find(|(head, _)| line.starts_with(head)) else { return Ok(None) };
    let mut fields = Fields::of(&line[head.len()..]);
    for kind in form.chars() {
        match kind {
            'b' => drop(fields.bytes("a field of the state")?),
            _ => drop(fields.number::<u64>("a field of the state")?),
        }
    }
    fields.end()?;
    Ok(Some(*head == FORMS[0].0))
}
