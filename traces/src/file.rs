//! A trace file read line by line.
use crate::answer::Answer;
use crate::call::{Call, Class};
use crate::fields::Fields;
use crate::state::{State, line_of_state};

/// The least table places that a trace needs.
#[derive(Clone, Copy, Debug, Eq, PartialEq)]
pub struct Places {
    pub pending: usize,
    pub circuits: usize,
    pub actions: usize,
    pub ledger: usize,
}

/// A call, what it answered, and the lines of the private state after it where they are given.
#[derive(Clone, Debug, Eq, PartialEq)]
pub struct Line {
    /// From 1, in the file.
    pub number: usize,
    pub class: Class,
    pub call: Call,
    pub answer: Answer,
    pub state: Option<Vec<String>>,
}

#[derive(Clone, Debug, Eq, PartialEq)]
pub struct Trace {
    pub places: Places,
    pub lines: Vec<Line>,
}

/// Why a file is no trace, and in which line.
#[derive(Clone, Debug, Eq, PartialEq)]
pub struct Fault {
    pub line: usize,
    pub reason: String,
}

impl Places {
    pub fn text(&self) -> String {
        format!("places {} {} {} {}", self.pending, self.circuits, self.actions, self.ledger)
    }

    fn parse(text: &str) -> Result<Self, String> {
        let mut fields = Fields::of(text);
        let places = Self {
            pending: fields.number("PENDING")?,
            circuits: fields.number("CIRCUITS")?,
            actions: fields.number("ACTIONS")?,
            ledger: fields.number("LEDGER")?,
        };
        fields.end()?;
        Ok(places)
    }
}

/// A trace file that is written.
pub struct Writer {
    lines: Vec<String>,
    /// Whether every word is listed, however many there are.
    full: bool,
}

impl Writer {
    pub fn new(title: &str, places: Places, full: bool) -> Self {
        Self { lines: vec![format!("# {title}"), places.text()], full }
    }

    pub fn call(&mut self, class: Class, call: &Call, answer: &Answer) {
        self.lines.push(format!("{} => {}", call.text(class), answer.text(self.full)));
    }

    /// The state after the last call.
    pub fn state(&mut self, state: &State) {
        self.lines.extend(state.lines());
    }

    pub fn text(&self) -> String {
        self.lines.join("\n") + "\n"
    }
}

/// The traces of a file: each begins with its `places`.
pub fn read(text: &str) -> Result<Vec<Trace>, Fault> {
    let mut traces = Vec::new();
    for (index, line) in text.lines().enumerate() {
        let number = index + 1;
        add(&mut traces, number, line).map_err(|reason| Fault { line: number, reason })?;
    }
    if traces.is_empty() {
        return Err(Fault { line: text.lines().count(), reason: "no trace is here".into() });
    }
    Ok(traces)
}

fn add(traces: &mut Vec<Trace>, number: usize, line: &str) -> Result<(), String> {
    if let Some(places) = line.strip_prefix("places ") {
        traces.push(Trace { places: Places::parse(places)?, lines: Vec::new() });
    } else if line.starts_with('#') {
        add_comment(traces, line)?;
    } else {
        let trace = traces.last_mut().ok_or("a call before `places`")?;
        let (left, right) = line.split_once(" => ").ok_or("no => behind the call")?;
        let (class, call) = Call::parse(left)?;
        let answer = Answer::parse(right)?;
        let taken = |line: &Line| line.answer.number == 0 && matches!(line.call, Call::New { .. });
        if !matches!(call, Call::New { .. }) && !trace.lines.iter().any(taken) {
            return Err("a call before a `new` that is taken".into());
        }
        trace.lines.push(Line { number, class, call, answer, state: None });
    }
    Ok(())
}

/// A comment counts only as a line of state.
fn add_comment(traces: &mut [Trace], line: &str) -> Result<(), String> {
    let Some(first) = line_of_state(line)? else { return Ok(()) };
    let call = traces.last_mut().and_then(|trace| trace.lines.last_mut()).ok_or("state before a call")?;
    match (&mut call.state, first) {
        (None, true) => call.state = Some(vec![line.to_owned()]),
        (Some(lines), false) => lines.push(line.to_owned()),
        (None, false) => return Err("state that does not begin with #state".into()),
        (Some(_), true) => return Err("a second state behind one call".into()),
    }
    Ok(())
}
