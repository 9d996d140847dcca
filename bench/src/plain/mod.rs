//! The same work in plain Rust, written from the documents.

pub mod book;
pub mod day;
pub mod figures;
pub mod ladder;
pub mod prices;
pub mod sheet;

use crate::ours::{Quarter, Quote};
use figures::{Figures, Unreported};
use prices::{Answer, Terms};
use sheet::{Fault, Sheet};

pub const SLOTS: usize = 228;
pub const CYCLES: usize = 225;

/// What is told of a reported slot: kW, and cents per MWh where a price is formed.
#[derive(Clone, Copy, Debug, PartialEq, Eq)]
pub struct Reading {
    pub demand: i32,
    pub up: Option<i32>,
    pub down: Option<i32>,
}

fn refused(number: u16, place: usize) -> Quote {
    Quote {
        refusal: number,
        place,
        ..Quote::default()
    }
}

fn plain_quote(answer: Answer) -> Quote {
    match answer {
        Answer::Up(cents) => Quote {
            direction: 1,
            cents,
            ..Quote::default()
        },
        Answer::Down(cents) => Quote {
            direction: 2,
            cents,
            ..Quote::default()
        },
        Answer::Avoided(cents) => Quote {
            direction: 3,
            cents,
            ..Quote::default()
        },
        Answer::NoAvoidedValue => refused(8, SLOTS),
    }
}

fn quoted(bytes: &[u8], terms: Terms) -> Quarter {
    let sheet = Sheet::decode(bytes);
    if let Some(Fault { number, place }) = sheet.fault {
        return Quarter {
            quotes: [refused(number, place); 5],
        };
    }
    match Figures::of(&sheet) {
        Ok(figures) => Quarter {
            quotes: prices::five(&figures, terms).map(plain_quote),
        },
        Err(Unreported { slot }) => Quarter {
            quotes: [refused(7, slot); 5],
        },
    }
}

/// The quotes of codes 1 to 5.
pub fn quarter(bytes: &[u8]) -> Quarter {
    quoted(bytes, Terms::Alone)
}

/// The quotes of codes 11 to 15.
pub fn incentive(bytes: &[u8]) -> Quarter {
    quoted(bytes, Terms::WithIncentive)
}

/// Writes what the sheet tells, and answers the length; a buffer that is too short is left as it was.
pub fn rewrite(bytes: &[u8], out: &mut [u8]) -> usize {
    Sheet::decode(bytes).write(out)
}
