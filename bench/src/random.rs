//! Random sheets, sound and damaged, and random bids, from a fixed seed.

use crate::ours::Bid;

/// SplitMix64.
pub struct Random {
    state: u64,
}

impl Random {
    pub fn new(seed: u64) -> Random {
        Random { state: seed }
    }

    pub fn next(&mut self) -> u64 {
        self.state = self.state.wrapping_add(0x9e37_79b9_7f4a_7c15);
        let mut z = self.state;
        z = (z ^ (z >> 30)).wrapping_mul(0xbf58_476d_1ce4_e5b9);
        z = (z ^ (z >> 27)).wrapping_mul(0x94d0_49bb_1331_11eb);
        z ^ (z >> 31)
    }

    pub fn below(&mut self, n: usize) -> usize {
        (self.next() % n as u64) as usize
    }

    fn chance(&mut self, one_in: usize) -> bool {
        self.below(one_in) == 0
    }

    /// A number within a bound: mostly of a few digits, at times any, 0, or the bound itself.
    fn within(&mut self, bound: i64) -> i64 {
        let any =
            |random: &mut Random, most: i64| random.below(2 * most as usize + 1) as i64 - most;
        match self.below(8) {
            0 => 0,
            1 => bound,
            2 => -bound,
            3 | 4 => any(self, bound),
            5 => any(self, 100.min(bound)),
            _ => any(self, 20_000.min(bound)),
        }
    }
}

const PRICE: i64 = 9_999_900;
const DEMAND: i64 = 10_000_000;
const ZONE: i64 = 100_000_000;

fn put(sheet: &mut Vec<u8>, number: i64) {
    let mut rest = if number < 0 {
        -2 * number - 1
    } else {
        2 * number
    } as u64;
    while rest >= 128 {
        sheet.push((rest % 128 + 128) as u8);
        rest /= 128;
    }
    sheet.push(rest as u8);
}

/// Which slots a sheet has.
#[derive(Clone, Copy, PartialEq, Eq)]
pub enum Kind {
    /// Every slot drawn anew, all reported.
    Mixed,
    /// Demand one way at an up price in each cycle, as in a quiet quarter, all reported.
    Steady,
    /// Every slot drawn anew, some not reported.
    Gaps,
}

fn put_head(random: &mut Random, sheet: &mut Vec<u8>) {
    sheet.extend_from_slice(b"ISP1");
    let zone = random.within(ZONE);
    put(sheet, zone);
    if random.chance(2) {
        sheet.push(1);
        let avoided = random.within(PRICE);
        put(sheet, avoided);
    } else {
        sheet.push(0);
    }
}

fn put_slot(random: &mut Random, sheet: &mut Vec<u8>, lead: u8) {
    sheet.push(lead);
    if lead == 0 {
        return;
    }
    let demand = random.within(DEMAND);
    put(sheet, demand);
    let prices = [0, 0, 1, 1, 2][lead as usize];
    for _ in 0..prices {
        let price = random.within(PRICE);
        put(sheet, price);
    }
}

pub fn sound(random: &mut Random, kind: Kind) -> Vec<u8> {
    let mut sheet = Vec::new();
    put_head(random, &mut sheet);
    // Few kinds of records in some sheets, so that a direction or the manual slots can lack a price.
    let leads = 1 + random.below(4);
    let first = random.below(4);
    let gap = 1 + random.below(228);
    for slot in 0..228 {
        if kind == Kind::Steady && slot < 225 {
            sheet.push(2);
            let demand = 50_000 + random.below(20_000) as i64;
            let price = 4_000 + random.below(3_000) as i64;
            put(&mut sheet, demand);
            put(&mut sheet, price);
            continue;
        }
        let lead = 1 + ((first + random.below(leads)) % 4) as u8;
        let lead = if kind == Kind::Gaps && random.chance(gap) {
            0
        } else {
            lead
        };
        put_slot(random, &mut sheet, lead);
    }
    sheet
}

/// A sheet with one or more of its bytes changed, dropped or added.
pub fn damaged(random: &mut Random) -> Vec<u8> {
    let kind = if random.chance(2) {
        Kind::Mixed
    } else {
        Kind::Gaps
    };
    let mut sheet = sound(random, kind);
    for _ in 0..=random.below(2) {
        let near = if random.chance(3) {
            12.min(sheet.len())
        } else {
            sheet.len()
        };
        let at = if near == 0 { 0 } else { random.below(near) };
        match random.below(7) {
            0 => sheet.truncate(at),
            1 => sheet.push(random.below(256) as u8),
            2 => sheet.insert(at, random.below(256) as u8),
            3 if !sheet.is_empty() => drop(sheet.remove(at)),
            // A long or an overlong number, of any kind, in place of a byte.
            4 if !sheet.is_empty() => {
                let long: [&[u8]; 4] = [
                    &[0x80, 0],
                    &[0xff, 0xff, 0xff, 0x7f],
                    &[0x80, 0x80, 0x80, 0x80],
                    &[0xff, 0x80, 0],
                ];
                sheet.splice(at..at + 1, long[random.below(4)].iter().copied());
            }
            // A number one beyond its bound.
            5 if !sheet.is_empty() => {
                let mut beyond = Vec::new();
                put(
                    &mut beyond,
                    [PRICE + 1, -PRICE - 1, DEMAND + 1, -DEMAND - 1, ZONE + 1][random.below(5)],
                );
                sheet.splice(at..at + 1, beyond);
            }
            _ if !sheet.is_empty() => sheet[at] = random.below(256) as u8,
            _ => {}
        }
    }
    sheet
}

/// Any of these: half of the sheets sound, some with slots that are not reported, the others damaged.
pub fn any(random: &mut Random) -> Vec<u8> {
    match random.below(8) {
        0..=2 => sound(random, Kind::Mixed),
        3 => sound(random, Kind::Gaps),
        4 => sound(random, Kind::Steady),
        _ => damaged(random),
    }
}

/// The sheets of a day, end to end, and where each ends.
pub fn day(
    random: &mut Random,
    periods: usize,
    draw: impl Fn(&mut Random) -> Vec<u8>,
) -> (Vec<u8>, Vec<usize>) {
    let (mut sheets, mut ends) = (Vec::new(), Vec::new());
    for _ in 0..periods {
        sheets.extend(draw(random));
        ends.push(sheets.len());
    }
    (sheets, ends)
}

/// Bids whose numbers and prices are drawn from few or from many, so that numbers stand already and prices tie.
pub fn bids(random: &mut Random) -> Vec<Bid> {
    let count = random.below(640);
    let numbers = [8, 640, 65_536][random.below(3)];
    let prices = [3, 1_000, 20_000_000][random.below(3)];
    (0..count)
        .map(|_| Bid {
            cents: random.below(prices) as i32 - prices as i32 / 2,
            kw: 1 + random.below(10_000_000) as u32,
            number: random.below(numbers) as u16,
        })
        .collect()
}

/// The numbers of the bids in a random order.
pub fn numbers(random: &mut Random, bids: &[Bid]) -> Vec<u16> {
    let mut numbers: Vec<u16> = bids.iter().map(|bid| bid.number).collect();
    for left in (1..numbers.len()).rev() {
        numbers.swap(left, random.below(left + 1));
    }
    numbers
}
