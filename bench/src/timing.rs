//! Interleaved rounds and their medians.

use std::time::Instant;

/// Nanoseconds of one unit of work.
pub struct Pair {
    pub ours: f64,
    pub plain: f64,
}

impl Pair {
    pub fn ratio(&self) -> f64 {
        self.ours / self.plain
    }
}

fn nanos(units: usize, work: &mut impl FnMut()) -> f64 {
    let start = Instant::now();
    work();
    start.elapsed().as_nanos() as f64 / units as f64
}

fn median(mut times: Vec<f64>) -> f64 {
    times.sort_by(f64::total_cmp);
    times[times.len() / 2]
}

/// The medians of many rounds, each of `units` units of work by both; who begins changes from round to round.
pub fn side_by_side(
    rounds: usize,
    units: usize,
    mut ours: impl FnMut(),
    mut plain: impl FnMut(),
) -> Pair {
    let (mut of_ours, mut of_plain) = (Vec::new(), Vec::new());
    ours();
    plain();
    for round in 0..rounds {
        if round % 2 == 0 {
            of_ours.push(nanos(units, &mut ours));
            of_plain.push(nanos(units, &mut plain));
        } else {
            of_plain.push(nanos(units, &mut plain));
            of_ours.push(nanos(units, &mut ours));
        }
    }
    Pair {
        ours: median(of_ours),
        plain: median(of_plain),
    }
}
