//! The answers of both, side by side.

use crate::ours::Quarter;
use crate::plain::ladder::MOST_BIDS;
use crate::random::{self, Random};
use crate::{ours, plain};

/// The most bytes that a sheet has.
pub const LONGEST: usize = 2_977;

#[derive(Default)]
pub struct Seen {
    pub accepted: usize,
    pub refused: [usize; 9],
    /// Quotes that the incentive component moved: up prices lifted, and down prices lowered.
    pub lifted: usize,
    pub lowered: usize,
}

fn differ(
    what: &str,
    seed: u64,
    ours: &dyn std::fmt::Debug,
    plain: &dyn std::fmt::Debug,
) -> String {
    format!("{what}, seed {seed}: ours {ours:?}, plain Rust {plain:?}")
}

fn rewriting(seed: u64, sheet: &[u8], room: usize) -> Result<(), String> {
    let (mut a, mut b) = ([0xa5; LONGEST + 3], [0xa5; LONGEST + 3]);
    let ours = ours::rewrite(sheet, &mut a[..room]);
    let plain = plain::rewrite(sheet, &mut b[..room]);
    if ours != plain {
        return Err(differ("length of a rewritten sheet", seed, &ours, &plain));
    }
    if a != b {
        return Err(differ("bytes of a rewritten sheet", seed, &a, &b));
    }
    Ok(())
}

fn prices(what: &str, seed: u64, ours: Quarter, plain: Quarter) -> Result<Quarter, String> {
    if ours != plain {
        return Err(differ(what, seed, &ours, &plain));
    }
    Ok(plain)
}

impl Seen {
    fn count(&mut self, alone: &Quarter, layered: &Quarter) {
        for quote in alone.quotes {
            self.refused[usize::from(quote.refusal)] += 1;
        }
        self.accepted += usize::from(!(1..=6).contains(&alone.quotes[0].refusal));
        for (below, quote) in alone.quotes.iter().zip(&layered.quotes) {
            self.lifted += usize::from(quote.cents > below.cents);
            self.lowered += usize::from(quote.cents < below.cents);
        }
    }
}

fn sheet(seed: u64, seen: &mut Seen) -> Result<(), String> {
    let mut random = Random::new(seed);
    let bytes = random::any(&mut random);
    let alone = prices(
        "five prices",
        seed,
        ours::quarter(&bytes),
        plain::quarter(&bytes),
    )?;
    let layered = prices(
        "five prices with the incentive component",
        seed,
        ours::incentive(&bytes),
        plain::incentive(&bytes),
    )?;
    seen.count(&alone, &layered);
    rewriting(seed, &bytes, LONGEST + 3)?;
    // A buffer that is too short, or just long enough.
    let len = plain::rewrite(&bytes, &mut []);
    rewriting(seed, &bytes, len)?;
    rewriting(seed, &bytes, random.below(len))
}

pub fn sheets(count: u64) -> Result<Seen, String> {
    let mut seen = Seen::default();
    for seed in 0..count {
        sheet(seed, &mut seen)?;
    }
    Ok(seen)
}

fn day(seed: u64) -> Result<(), String> {
    let mut random = Random::new(!seed);
    let (periods, parties) = (random.below(103), random.below(35));
    let all_sound = random.below(4) > 0;
    let (sheets, ends) = random::day(&mut random, periods, |random| match all_sound {
        true => random::sound(random, random::Kind::Mixed),
        false => random::any(random),
    });
    // Places for fewer payments than parties, or for more.
    let places = random.below(40);
    let (mut first, mut second) = (vec![7; places], vec![7; places]);
    let (mut plain_first, mut plain_second) = (first.clone(), second.clone());
    let ours = ours::day(&sheets, &ends, parties, &mut first, &mut second);
    let plain = plain::day::day(&sheets, &ends, parties, &mut plain_first, &mut plain_second);
    if ours != plain {
        return Err(differ("a day in the book", seed, &ours, &plain));
    }
    if first != plain_first {
        return Err(differ("first payments", seed, &first, &plain_first));
    }
    if second != plain_second {
        return Err(differ(
            "payments after the late value",
            seed,
            &second,
            &plain_second,
        ));
    }
    Ok(())
}

pub fn days(count: u64) -> Result<(), String> {
    (0..count).try_for_each(day)
}

/// Whether as many bids stood as may.
fn ladder(seed: u64) -> Result<bool, String> {
    let mut random = Random::new(seed ^ (1 << 43));
    let bids = random::bids(&mut random);
    let mut numbers = random::numbers(&mut random, &bids);
    // Some numbers are never withdrawn, or withdrawn twice.
    numbers.truncate(random.below(640));
    numbers.extend_from_within(..random.below(4).min(numbers.len()));
    // Places for fewer ranks than bids, or for more.
    let mut ranks = vec![7; random.below(660)];
    let mut plain_ranks = ranks.clone();
    let ours = ours::ladder(&bids, &numbers, &mut ranks);
    let plain = plain::ladder::ladder(&bids, &numbers, &mut plain_ranks);
    if ours != plain {
        return Err(differ("bids on a ladder", seed, &ours, &plain));
    }
    if ranks != plain_ranks {
        return Err(differ("ranks of bids", seed, &ranks, &plain_ranks));
    }
    Ok(ours.added == MOST_BIDS)
}

/// How many of the ladders were full.
pub fn ladders(count: u64) -> Result<usize, String> {
    (0..count).try_fold(0, |full, seed| Ok(full + usize::from(ladder(seed)?)))
}
