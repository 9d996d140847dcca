//! Compares the proved library with plain Rust, answer by answer and in time.

mod compare;
mod memory;
mod ours;
mod plain;
mod random;
mod rows;
mod timing;

use compare::LONGEST;
use ours::{Bid, Quarter};
use plain::ladder::MOST_BIDS;
use random::{Kind, Random};
use rows::tell;
use std::hint::black_box;
use std::process::ExitCode;
use timing::{side_by_side, Pair};

const SHEETS: u64 = 100_000;
const DAYS: u64 = 500;
const LADDERS: u64 = 5_000;
const ROUNDS: usize = 401;
const POOL: usize = 64;
const LADDERS_AT_ONCE: usize = 4;
const PERIODS: usize = 100;
const PARTIES: usize = 32;

fn compared(count: u64) -> Result<(), String> {
    let seen = compare::sheets(count)?;
    println!(
        "{count} sheets, {} of them accepted: the same prices, refusals and rewritten sheets",
        seen.accepted
    );
    println!("  quotes by refusal, 0 to 8: {:?}", seen.refused);
    println!(
        "  prices that the incentive component lifted: {}, lowered: {}",
        seen.lifted, seen.lowered
    );
    compare::days(DAYS)?;
    println!("{DAYS} days in the book: the same payments and refusals");
    let full = compare::ladders(LADDERS)?;
    println!("{LADDERS} ladders, {full} of them full: the same ranks, and as many bids added and withdrawn");
    Ok(())
}

fn pool(kind: Kind) -> Vec<Vec<u8>> {
    let mut random = Random::new(1 << 40);
    (0..POOL)
        .map(|_| random::sound(&mut random, kind))
        .collect()
}

fn time_prices(
    pool: &[Vec<u8>],
    ours: impl Fn(&[u8]) -> Quarter,
    plain: impl Fn(&[u8]) -> Quarter,
) -> Pair {
    side_by_side(
        ROUNDS,
        POOL,
        || {
            for sheet in pool {
                black_box(ours(black_box(sheet)));
            }
        },
        || {
            for sheet in pool {
                black_box(plain(black_box(sheet)));
            }
        },
    )
}

fn time_sheets(kind: Kind, name: &str) {
    let pool = pool(kind);
    let prices = time_prices(&pool, ours::quarter, plain::quarter);
    tell(&format!("decode and five prices, {name}"), &prices);
    let layered = time_prices(&pool, ours::incentive, plain::incentive);
    tell(
        &format!("decode and five prices with the incentive component, {name}"),
        &layered,
    );
    let (mut a, mut b) = ([0; LONGEST], [0; LONGEST]);
    let rewriting = side_by_side(
        ROUNDS,
        POOL,
        || {
            for sheet in &pool {
                black_box(ours::rewrite(black_box(sheet), black_box(&mut a)));
            }
        },
        || {
            for sheet in &pool {
                black_box(plain::rewrite(black_box(sheet), black_box(&mut b)));
            }
        },
    );
    tell(&format!("decode and write, {name}"), &rewriting);
}

fn time_day(periods: usize, kind: Kind) -> Pair {
    let (sheets, ends) = random::day(&mut Random::new(1 << 41), periods, |random| {
        random::sound(random, kind)
    });
    let (mut a, mut b) = ([[0; PARTIES]; 2], [[0; PARTIES]; 2]);
    let mut of_ours = || {
        let [first, second] = black_box(&mut a);
        black_box(ours::day(
            black_box(&sheets),
            black_box(&ends),
            black_box(PARTIES),
            first,
            second,
        ));
    };
    let mut of_plain = || {
        let [first, second] = black_box(&mut b);
        black_box(plain::day::day(
            black_box(&sheets),
            black_box(&ends),
            black_box(PARTIES),
            first,
            second,
        ));
    };
    let often = (PERIODS / periods).max(1);
    side_by_side(
        ROUNDS,
        often,
        || (0..often).for_each(|_| of_ours()),
        || (0..often).for_each(|_| of_plain()),
    )
}

fn time_ladder(bids: &[Bid], numbers: &[u16]) -> Pair {
    let (mut a, mut b) = ([0; MOST_BIDS], [0; MOST_BIDS]);
    side_by_side(
        ROUNDS,
        LADDERS_AT_ONCE,
        || {
            for _ in 0..LADDERS_AT_ONCE {
                black_box(ours::ladder(
                    black_box(bids),
                    black_box(numbers),
                    black_box(&mut a),
                ));
            }
        },
        || {
            for _ in 0..LADDERS_AT_ONCE {
                black_box(plain::ladder::ladder(
                    black_box(bids),
                    black_box(numbers),
                    black_box(&mut b),
                ));
            }
        },
    )
}

/// As many bids as may stand, with a price for each number.
fn full_ladder(mut cents: impl FnMut(u16) -> i32) -> Vec<Bid> {
    (0..MOST_BIDS as u16)
        .map(|number| Bid {
            cents: cents(number),
            kw: 5_000,
            number,
        })
        .collect()
}

/// Falling prices are the worst order: each bid stands in front of all before it, and where the first is withdrawn all
/// others move.
fn time_ladders() {
    let falling = full_ladder(|number| 10_000 - i32::from(number));
    let first_added: Vec<u16> = falling.iter().map(|bid| bid.number).collect();
    let first_standing: Vec<u16> = first_added.iter().rev().copied().collect();
    tell(
        "512 bids added in the worst order, the first withdrawn first",
        &time_ladder(&falling, &first_standing),
    );
    tell(
        "512 bids added in the worst order, the last withdrawn first",
        &time_ladder(&falling, &first_added),
    );
    let mut random = Random::new(1 << 44);
    let drawn = full_ladder(|_| random.below(20_000) as i32);
    let numbers = random::numbers(&mut random, &drawn);
    tell(
        "512 bids added and withdrawn in a random order",
        &time_ladder(&drawn, &numbers),
    );
}

fn time_rows() {
    for (kind, name) in [(Kind::Mixed, "mixed slots"), (Kind::Steady, "steady slots")] {
        time_sheets(kind, name);
        tell(
            &format!("a day of 100 periods, 32 parties, {name}"),
            &time_day(PERIODS, kind),
        );
    }
    time_ladders();
}

fn time_periods() {
    for (kind, name) in [
        (Kind::Mixed, "periods, mixed slots"),
        (Kind::Steady, "periods, steady slots"),
    ] {
        println!(
            "\n{name:<24} {:>9} {:>9} {:>7} {:>15} {:>16}",
            "ours", "plain", "ratio", "ours per period", "plain per period"
        );
        for periods in [1, 2, 5, 10, 20, 50, 100] {
            let pair = time_day(periods, kind);
            let (ours, plain) = (pair.ours / 1000.0, pair.plain / 1000.0);
            let each = periods as f64;
            println!(
                "{periods:<24} {ours:>9.2} {plain:>9.2} {:>7.2} {:>15.2} {:>16.2}",
                pair.ratio(),
                ours / each,
                plain / each
            );
        }
    }
}

/// A day in the book allocates nothing, nor does pricing, writing or a ladder.
fn measured() -> Result<(), String> {
    let sheet = random::sound(&mut Random::new(1 << 42), Kind::Mixed);
    let (sheets, ends) = (
        sheet.repeat(PERIODS),
        (1..=PERIODS).map(|n| n * sheet.len()).collect::<Vec<_>>(),
    );
    let (mut first, mut second, mut out) = ([0; PARTIES], [0; PARTIES], [0; LONGEST]);
    let book = memory::allocated(|| {
        black_box(ours::day(&sheets, &ends, PARTIES, &mut first, &mut second));
    });
    let pricing = memory::allocated(|| {
        black_box(ours::quarter(&sheet));
        black_box(ours::incentive(&sheet));
    });
    let writing = memory::allocated(|| {
        black_box(ours::rewrite(&sheet, &mut out));
    });
    let bids = full_ladder(i32::from);
    let (numbers, mut ranks) = ([0, 1, 2], [0; MOST_BIDS]);
    let ladder = memory::allocated(|| {
        black_box(ours::ladder(&bids, &numbers, &mut ranks));
    });
    println!("\nallocations of a day in the book: {book}; of five prices: {pricing}; of writing a sheet: {writing}; of a ladder: {ladder}");
    if book + pricing + writing + ladder > 0 {
        return Err("more memory than was promised".into());
    }
    Ok(())
}

/// What `bench/run` asks for: the comparison, or a part of the timing.
fn done(mut words: impl Iterator<Item = String>) -> Result<(), String> {
    match words.next().as_deref() {
        Some("compare") => {
            let count = words.next().map_or(Ok(SHEETS), |word| word.parse());
            compared(count.map_err(|_| "how many sheets is a number")?)?;
            measured()
        }
        Some("rows") => {
            time_rows();
            Ok(())
        }
        Some("table") => rows::table(),
        Some("periods") => {
            time_periods();
            Ok(())
        }
        _ => Err("compare [COUNT], rows, table or periods: see bench/run".into()),
    }
}

fn main() -> ExitCode {
    match done(std::env::args().skip(1)) {
        Ok(()) => ExitCode::SUCCESS,
        Err(difference) => {
            eprintln!("{difference}");
            ExitCode::FAILURE
        }
    }
}
