//! The area's book.

use super::figures::Figures;
use super::prices::{self, Answer, Terms};
use super::sheet::Sheet;

const LIMIT: i64 = 5_000_000;
const SCHEDULES: usize = 32;

#[derive(Clone, Copy, Debug, PartialEq, Eq)]
pub struct Refusal {
    pub number: u16,
    pub place: usize,
}

#[derive(Clone, Copy, Debug, PartialEq, Eq)]
pub enum Quarter {
    Blank,
    Priced(Answer),
    /// No day of the bench closes a quarter, but each call looks for it.
    #[allow(dead_code)]
    Closed(Answer),
}

impl Quarter {
    fn cents(self) -> i64 {
        match self {
            Quarter::Priced(answer) | Quarter::Closed(answer) => match answer {
                Answer::Up(cents) | Answer::Down(cents) | Answer::Avoided(cents) => cents,
                Answer::NoAvoidedValue => 0,
            },
            Quarter::Blank => 0,
        }
    }
}

pub struct MeterValues<'a> {
    pub schedules: &'a [i64],
    pub allocated: i64,
    pub adjustment: i64,
}

impl MeterValues<'_> {
    pub fn imbalance(&self) -> Result<i32, Refusal> {
        let within = |kwh: i64| (-LIMIT..=LIMIT).contains(&kwh);
        let refuse = |place| Err(Refusal { number: 13, place });
        if self.schedules.len() > SCHEDULES {
            return refuse(32);
        }
        if let Some(index) = self.schedules.iter().position(|&kwh| !within(kwh)) {
            return refuse(index);
        }
        let position: i64 = self.schedules.iter().sum();
        if !within(position) {
            return refuse(33);
        }
        if !within(self.allocated) {
            return refuse(34);
        }
        if !within(self.adjustment) {
            return refuse(35);
        }
        Ok((self.allocated - position - self.adjustment) as i32)
    }
}

pub struct Book {
    parties: usize,
    quarters: Vec<Quarter>,
    volumes: Vec<i32>,
    paid: Vec<i64>,
}

impl Book {
    pub fn start(periods: usize, parties: usize) -> Result<Book, Refusal> {
        if !(1..=100).contains(&periods) {
            return Err(Refusal {
                number: 14,
                place: 0,
            });
        }
        if !(1..=32).contains(&parties) {
            return Err(Refusal {
                number: 14,
                place: 1,
            });
        }
        Ok(Book {
            parties,
            quarters: vec![Quarter::Blank; periods],
            volumes: vec![0; periods * parties],
            paid: vec![0; parties],
        })
    }

    fn open(&mut self, period: usize) -> Result<&mut Quarter, Refusal> {
        match self.quarters.get_mut(period) {
            None => Err(Refusal {
                number: 9,
                place: period,
            }),
            Some(Quarter::Closed(_)) => Err(Refusal {
                number: 11,
                place: period,
            }),
            Some(quarter) => Ok(quarter),
        }
    }

    fn party(&self, party: usize) -> Result<(), Refusal> {
        if party < self.parties {
            Ok(())
        } else {
            Err(Refusal {
                number: 10,
                place: party,
            })
        }
    }

    /// Prices a quarter from a sheet under the Finnish rulebook.
    pub fn price(&mut self, period: usize, sheet: &Sheet) -> Result<Quarter, Refusal> {
        let quarter = self.open(period)?;
        let figures = Figures::of(sheet).map_err(|fault| Refusal {
            number: 7,
            place: fault.slot,
        })?;
        match prices::finnish(&figures, Terms::Alone) {
            Answer::NoAvoidedValue => Err(Refusal {
                number: 8,
                place: super::SLOTS,
            }),
            answer => {
                *quarter = Quarter::Priced(answer);
                Ok(*quarter)
            }
        }
    }

    pub fn meter(
        &mut self,
        period: usize,
        party: usize,
        values: &MeterValues,
    ) -> Result<i32, Refusal> {
        if period >= self.quarters.len() {
            return Err(Refusal {
                number: 9,
                place: period,
            });
        }
        self.party(party)?;
        self.open(period)?;
        let imbalance = values.imbalance()?;
        self.volumes[period * self.parties + party] = imbalance;
        Ok(imbalance)
    }

    pub fn settle(&mut self, party: usize) -> Result<i64, Refusal> {
        self.party(party)?;
        let volumes = self.volumes.iter().skip(party).step_by(self.parties);
        let worth: i64 = volumes
            .zip(&self.quarters)
            .map(|(&kwh, quarter)| i64::from(kwh) * quarter.cents())
            .sum();
        let due = (worth + 500 * worth.signum()) / 1000;
        let before = std::mem::replace(&mut self.paid[party], due);
        Ok(due - before)
    }
}
