//! What the header says the answers are, for what the reference answers.

use crate::library::{flag, kind, OfferAnswer, PlanAnswer, TableAnswer, TickAnswer};
use reference::block::BLOCK;
use reference::station::{Answer, Band, Closing, Job, Runner, Station};
use reference::table::{read_table, write_table, Table};

/// Planning: 11 for the length only, then the file.
pub fn plan(table: &[u8], block_bytes: usize) -> (PlanAnswer, Option<Table>) {
    if block_bytes != BLOCK {
        return (PlanAnswer { refusal: 11, ..Default::default() }, None);
    }
    match read_table(table) {
        Ok(table) => (PlanAnswer::default(), Some(table)),
        Err(refusal) => {
            let answer = PlanAnswer {
                refusal: u64::from(refusal.number),
                row: refusal.row.unwrap_or(0) as u64,
                from: refusal.from as u64,
                size: refusal.size as u64,
            };
            (answer, None)
        }
    }
}

/// A tick: 20, 11, then the station's step. No station stands for a block that is
/// no image.
pub fn tick(station: Option<&mut Station>, released: u16, flags: u8) -> TickAnswer {
    let refused = |number: u8| TickAnswer { refusal: u64::from(number), ..Default::default() };
    if flags > flag::DONE + flag::SOFT {
        return refused(20);
    }
    let Some(station) = station else {
        return refused(11);
    };
    let done = flags % 2 == 1;
    let soft = flags / 2 == 1;
    stepped(station.tick(released, done, soft))
}

fn stepped(answer: Answer) -> TickAnswer {
    let mut fields = TickAnswer {
        unknown: answer.notes.unknown,
        not_ready: answer.notes.not_ready,
        none_ran: u64::from(answer.notes.none_ran),
        clock: answer.clock as u64,
        ..Default::default()
    };
    match answer.runner {
        Runner::Hard(row, band) => {
            fields.runner = kind::HARD;
            fields.runner_row = row as u64;
            fields.band = match band {
                Band::Upper => kind::UPPER,
                Band::Lower => kind::LOWER,
            };
        }
        Runner::Firm(ticket) => {
            fields.runner = kind::FIRM;
            fields.ticket = ticket as u64;
        }
        Runner::Soft => fields.runner = kind::SOFT,
        Runner::Idle => fields.runner = kind::IDLE,
    }
    let (job, closing) = match answer.closing {
        Closing::None => return fields,
        Closing::Done(job) => (job, kind::DONE),
        Closing::Spent(job) => (job, kind::SPENT),
    };
    fields.closing = closing;
    match job {
        Job::Hard(row) => {
            fields.closed = kind::HARD;
            fields.closed_row = row as u64;
        }
        Job::Firm(ticket) => {
            fields.closed = kind::FIRM;
            fields.closed_ticket = ticket as u64;
        }
    }
    fields
}

/// An offer: 11, then the station's own checks.
pub fn offer(station: Option<&mut Station>, budget: u16, deadline: u16) -> OfferAnswer {
    let Some(station) = station else {
        return OfferAnswer { refusal: 11, ticket: 0 };
    };
    match station.offer(budget, deadline) {
        Ok(ticket) => OfferAnswer { refusal: 0, ticket: ticket as u64 },
        Err(number) => OfferAnswer { refusal: u64::from(number), ticket: 0 },
    }
}

/// The table read back: 11, then the writer's own checks.
pub fn table(station: Option<&Station>, out: &mut [u8]) -> TableAnswer {
    let Some(station) = station else {
        return TableAnswer { refusal: 11, size: 0 };
    };
    match write_table(&station.table_rows(), out) {
        Ok(size) => TableAnswer { refusal: 0, size: size as u64 },
        Err(number) => TableAnswer { refusal: u64::from(number), size: 0 },
    }
}
