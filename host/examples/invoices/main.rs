//! Invoices over the relay, in one process: a box at the supplier, the merchant's purchasing
//! system, and the relay between them.
//!
//! After each step the relay's status, its reservations, what is due next and how many more routes fit are held to a
//! reckoning made from the history of the calls alone. The first that differs, or the first invoice that arrives
//! changed, ends this with exit code 1.
mod bodies;
mod office;
mod reckoning;

use lekchnam_host::HnsrRuntimeError;
use office::{Office, Result};
use std::process::ExitCode;

fn main() -> ExitCode {
    let mut office = Office::new();
    match story(&mut office) {
        Ok(()) => {
            println!("\nEvery count agreed after every step, and {} invoices arrived unchanged.", office.arrived());
            ExitCode::SUCCESS
        }
        Err(wrong) => {
            eprintln!("\nWRONG: {wrong}");
            ExitCode::FAILURE
        }
    }
}

fn story(office: &mut Office) -> Result<()> {
    late_acknowledgements(office)?;
    a_lost_invoice(office)?;
    a_broken_connection(office)?;
    time_runs_out(office)?;
    off_and_on(office)?;
    a_busy_yard(office)
}

fn late_acknowledgements(office: &mut Office) -> Result<()> {
    office.step("The supplier's box asks for a circuit. The purchasing system accepts.");
    let circuit = office.circuit()?;
    office.check()?;

    office.step("Three invoices arrive, but the acknowledgements are late.");
    for number in 1..=3 {
        office.invoice(circuit, number)?;
    }
    let late = office.deliver()?;
    office.check()?;

    office
        .step("Two acknowledgements come, the last one first. The third is lost: that invoice still counts as queued.");
    for letter in late.into_iter().skip(1).rev() {
        office.acknowledge(letter, true)?;
    }
    office.check()?;

    office.step("The purchasing system hangs up. What was queued for the circuit no longer counts.");
    office.hang_up(circuit)?;
    office.settle()?;
    office.check()
}

fn a_lost_invoice(office: &mut Office) -> Result<()> {
    office.step("A new circuit; an invoice is lost on the way. The relay tells both sides that the circuit is closed.");
    let circuit = office.circuit()?;
    office.invoice(circuit, 4)?;
    office.lose()?;
    office.check()?;

    office.step("So the box asks for another circuit and sends the invoice again.");
    office.settle()?;
    let circuit = office.circuit()?;
    office.invoice(circuit, 4)?;
    office.settle()?;
    office.check()
}

fn a_broken_connection(office: &mut Office) -> Result<()> {
    office.step("The box's connection breaks while an invoice is under way.");
    let circuit = office.circuit()?;
    office.invoice(circuit, 5)?;
    let under_way = office.deliver()?;
    office.break_connection()?;
    office.check()?;

    office.step("Its acknowledgement comes too late: the circuit is gone, and so is the action.");
    for letter in under_way {
        office.refused(letter, HnsrRuntimeError::UnknownAction)?;
    }
    office.settle()?;
    office.check()
}

fn time_runs_out(office: &mut Office) -> Result<()> {
    office
        .step("A circuit, and an OPEN that nobody accepts: its deadline comes first, then the end of the reservation.");
    office.circuit()?;
    office.ask()?;
    office.settle()?;
    office.check()?;

    office.step("The clock moves to what is due next, twice.");
    office.expire()?;
    office.check()?;
    office.expire()?;
    office.settle()?;
    office.check()?;

    office.step("By a new reservation a circuit is opened, and closed again. The reservation alone is due.");
    let circuit = office.circuit()?;
    office.hang_up(circuit)?;
    office.settle()?;
    office.check()?;

    office.step("The clock moves to its end. It is no longer listed, and nothing is due.");
    office.expire()?;
    office.check()?;
    office.idle()
}

fn off_and_on(office: &mut Office) -> Result<()> {
    office.step("With a circuit open and an invoice under way the relay is switched off.");
    let circuit = office.circuit()?;
    office.invoice(circuit, 6)?;
    let under_way = office.deliver()?;
    office.switch(false)?;
    office.check()?;

    office.step("Off: acknowledgements of the last generation are stale. Then it is switched on again.");
    for letter in under_way {
        office.refused(letter, HnsrRuntimeError::StaleGeneration)?;
    }
    office.settle()?;
    office.switch(true)?;
    office.check()?;

    office.step("Business as before.");
    let circuit = office.circuit()?;
    office.invoice(circuit, 7)?;
    office.settle()?;
    office.hang_up(circuit)?;
    office.settle()?;
    office.check()
}

fn a_busy_yard(office: &mut Office) -> Result<()> {
    office.step("The yard is busy: each invoice that is not acknowledged yet takes a route.");
    let circuit = office.circuit()?;
    for number in 8..=11 {
        office.invoice(circuit, number)?;
        office.room()?;
    }
    let mut late = office.deliver()?;
    office.check()?;

    office.step("No more routes fit, so the next invoice is held. An acknowledgement comes, and it is offered again.");
    office.held(circuit, 12)?;
    office.acknowledge(late.pop().ok_or("four letters")?, true)?;
    office.room()?;
    office.invoice(circuit, 12)?;
    office.check()?;

    office.step("The other acknowledgements come.");
    for letter in late {
        office.acknowledge(letter, true)?;
    }
    office.settle()?;
    office.check()
}
