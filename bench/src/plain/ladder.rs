//! Up bids on a ladder: the cheapest stands first, equal prices by lower number.

use super::book::Refusal;
use crate::ours::{Bid, Ladder};

pub const MOST_BIDS: usize = 512;

struct UpLadder {
    bids: Vec<Bid>,
}

impl UpLadder {
    fn new() -> UpLadder {
        UpLadder {
            bids: Vec::with_capacity(MOST_BIDS),
        }
    }

    /// Answers the bid's rank.
    fn add(&mut self, bid: Bid) -> Result<usize, Refusal> {
        if self.bids.iter().any(|other| other.number == bid.number) {
            return Err(Refusal {
                number: 18,
                place: usize::from(bid.number),
            });
        }
        if self.bids.len() == MOST_BIDS {
            return Err(Refusal {
                number: 17,
                place: MOST_BIDS,
            });
        }
        let merit = |bid: &Bid| (bid.cents, bid.number);
        let rank = match self.bids.binary_search_by_key(&merit(&bid), merit) {
            Ok(rank) | Err(rank) => rank,
        };
        self.bids.insert(rank, bid);
        Ok(rank)
    }

    fn withdraw(&mut self, number: u16) -> Result<Bid, Refusal> {
        let place = self
            .bids
            .iter()
            .position(|bid| bid.number == number)
            .ok_or(Refusal {
                number: 19,
                place: usize::from(number),
            })?;
        Ok(self.bids.remove(place))
    }
}

/// Adds each bid in turn and puts its rank in its place, then withdraws the bid of each number in turn.
pub fn ladder(bids: &[Bid], numbers: &[u16], ranks: &mut [usize]) -> Ladder {
    let mut ladder = UpLadder::new();
    let mut added = 0;
    for (place, &bid) in bids.iter().enumerate() {
        if let Ok(rank) = ladder.add(bid) {
            added += 1;
            if let Some(place) = ranks.get_mut(place) {
                *place = rank;
            }
        }
    }
    let withdrawn = numbers
        .iter()
        .filter(|&&number| ladder.withdraw(number).is_ok())
        .count();
    Ladder { added, withdrawn }
}
