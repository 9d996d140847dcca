//! The five rulebooks, the incentive component over them, and the rounded price.

use super::figures::{Direction, Figures, Side};

#[derive(Clone, Copy, Debug, PartialEq, Eq)]
pub enum Answer {
    Up(i64),
    Down(i64),
    Avoided(i64),
    NoAvoidedValue,
}

/// An exact price `n / d`, with `d` above 0.
#[derive(Clone, Copy, Debug)]
struct Fraction {
    n: i64,
    d: i64,
}

impl Fraction {
    fn at_most(self, other: Fraction) -> bool {
        i128::from(self.n) * i128::from(other.d) <= i128::from(other.n) * i128::from(self.d)
    }

    /// The nearest whole number, a half going away from zero.
    fn rounded(self) -> i64 {
        let (whole, rest) = (self.n / self.d, self.n % self.d);
        if 2 * rest.abs() >= self.d {
            whole + rest.signum()
        } else {
            whole
        }
    }
}

impl From<i32> for Fraction {
    fn from(price: i32) -> Fraction {
        Fraction {
            n: i64::from(price),
            d: 1,
        }
    }
}

fn extreme(direction: Direction, a: Option<Fraction>, b: Option<Fraction>) -> Option<Fraction> {
    match (a, b) {
        (Some(a), Some(b)) => Some(match direction {
            Direction::Up if a.at_most(b) => b,
            Direction::Down if b.at_most(a) => b,
            _ => a,
        }),
        (a, b) => a.or(b),
    }
}

impl Side {
    fn automatic_mean(&self) -> Option<Fraction> {
        (self.volume > 0).then_some(Fraction {
            n: self.value,
            d: self.volume,
        })
    }

    fn weighted_mean(&self) -> Option<Fraction> {
        let (mut n, mut d) = (self.value, self.volume);
        for manual in &self.manual {
            n += manual.volume * manual.price.map_or(0, i64::from);
            d += manual.volume;
        }
        (d > 0).then_some(Fraction { n, d })
    }

    fn manual_counts(&self) -> bool {
        self.manual.iter().any(|manual| manual.volume > 0)
    }

    /// The extreme of the formed manual prices, of those that count or of all.
    fn manual_extreme(&self, direction: Direction, counting: bool) -> Option<Fraction> {
        let prices = self
            .manual
            .iter()
            .filter(|manual| !counting || manual.volume > 0);
        let prices = prices.filter_map(|manual| manual.price);
        let price = match direction {
            Direction::Up => prices.max(),
            Direction::Down => prices.min(),
        };
        price.map(Fraction::from)
    }
}

/// What a rulebook decides: a direction with its exact price, or the avoided activation.
type Ruling = Option<(Direction, Fraction)>;

/// Under which terms the rulebooks are asked.
#[derive(Clone, Copy, Debug, PartialEq, Eq)]
pub enum Terms {
    /// Codes 1 to 5.
    Alone,
    /// The incentive component over each: codes 11 to 15.
    WithIncentive,
}

fn toward(net: i64) -> Option<Direction> {
    match net {
        1.. => Some(Direction::Up),
        0 => None,
        _ => Some(Direction::Down),
    }
}

/// The exact price is lifted, or lowered, to the avoided value where that is more extreme.
fn with_incentive(ruling: Ruling, avoided: Option<i32>) -> Ruling {
    let (direction, price) = ruling?;
    let price = extreme(direction, Some(price), avoided.map(Fraction::from))?;
    Some((direction, price))
}

fn answer(figures: &Figures, ruling: Ruling) -> Answer {
    match (ruling, figures.avoided) {
        (Some((Direction::Up, price)), _) => Answer::Up(price.rounded()),
        (Some((Direction::Down, price)), _) => Answer::Down(price.rounded()),
        (None, Some(price)) => Answer::Avoided(i64::from(price)),
        (None, None) => Answer::NoAvoidedValue,
    }
}

/// The price in the direction of a net, by the components of that side.
fn decide(
    figures: &Figures,
    terms: Terms,
    net: i64,
    price: impl Fn(Direction, &Side) -> Option<Fraction>,
) -> Answer {
    let ruling = toward(net)
        .and_then(|direction| Some((direction, price(direction, figures.side(direction))?)));
    match terms {
        Terms::Alone => answer(figures, ruling),
        Terms::WithIncentive => answer(figures, with_incentive(ruling, figures.avoided)),
    }
}

pub fn finnish(figures: &Figures, terms: Terms) -> Answer {
    let net = i64::from(figures.zone_net);
    decide(figures, terms, net, |direction, side| {
        if side.manual_counts() {
            side.weighted_mean()
        } else {
            extreme(
                direction,
                side.automatic_mean(),
                side.manual_extreme(direction, false),
            )
        }
    })
}

/// The five rulebooks, in the order of their codes.
pub fn five(figures: &Figures, terms: Terms) -> [Answer; 5] {
    let net = figures.local_net;
    [
        decide(figures, terms, net, |_, side| side.weighted_mean()),
        decide(figures, terms, net, |direction, side| {
            extreme(
                direction,
                side.automatic_mean(),
                side.manual_extreme(direction, true),
            )
        }),
        decide(figures, terms, net, |direction, side| {
            extreme(
                direction,
                side.weighted_mean(),
                side.manual_extreme(direction, true),
            )
        }),
        decide(figures, terms, net, |direction, side| {
            extreme(
                direction,
                side.extreme.map(Fraction::from),
                side.manual_extreme(direction, true),
            )
        }),
        finnish(figures, terms),
    ]
}
