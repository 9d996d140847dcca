//! A day in the book, with the same meter values as the proved library's.

use super::book::{Book, MeterValues};
use super::sheet::Sheet;
use crate::ours::Day;

fn meter(book: &mut Book, period: usize, party: usize, late: i64) {
    let (p, q) = (period as i64, party as i64);
    let values = MeterValues {
        schedules: &[13 * p - 900, 7 * q - 350],
        allocated: 11 * p - 23 * q - 1_262 + late,
        adjustment: q - 16,
    };
    let _ = book.meter(period, party, &values);
}

fn settle_all(book: &mut Book, payments: &mut [i64]) {
    for (party, payment) in payments.iter_mut().enumerate() {
        if let Ok(cents) = book.settle(party) {
            *payment = cents;
        }
    }
}

pub fn day(
    sheets: &[u8],
    ends: &[usize],
    parties: usize,
    first: &mut [i64],
    second: &mut [i64],
) -> Day {
    let mut book = match Book::start(ends.len(), parties) {
        Ok(book) => book,
        Err(refusal) => {
            return Day {
                started: false,
                refusal: refusal.number,
                place: refusal.place,
                priced: 0,
            };
        }
    };
    let mut priced = 0;
    let mut start = 0;
    for (period, &end) in ends.iter().enumerate() {
        let sheet = Sheet::decode(sheets.get(start..end).unwrap_or(&[]));
        priced += usize::from(book.price(period, &sheet).is_ok());
        start = end;
    }
    for period in 0..ends.len() {
        for party in 0..parties {
            meter(&mut book, period, party, 0);
        }
    }
    settle_all(&mut book, first);
    meter(&mut book, ends.len() - 1, 0, 65);
    settle_all(&mut book, second);
    Day {
        started: true,
        refusal: 0,
        place: 0,
        priced,
    }
}
