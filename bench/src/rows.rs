//! What was timed, at each of several places in memory.

use crate::timing::Pair;
use std::io::Read;

struct Row {
    what: String,
    places: Vec<Pair>,
}

/// A row of one place, for `table` to read.
pub fn tell(what: &str, pair: &Pair) {
    println!("{what}\t{}\t{}", pair.ours, pair.plain);
}

fn told(line: &str) -> Option<(&str, Pair)> {
    let mut words = line.split('\t');
    let what = words.next()?;
    let ours = words.next()?.parse().ok()?;
    let plain = words.next()?.parse().ok()?;
    Some((what, Pair { ours, plain }))
}

/// Each row once, with its times at all places.
fn gathered(text: &str) -> Result<Vec<Row>, String> {
    let mut rows: Vec<Row> = Vec::new();
    for line in text.lines() {
        let (what, pair) = told(line).ok_or_else(|| format!("not a row: {line}"))?;
        match rows.iter_mut().find(|row| row.what == what) {
            Some(row) => row.places.push(pair),
            None => rows.push(Row {
                what: what.into(),
                places: vec![pair],
            }),
        }
    }
    Ok(rows)
}

impl Row {
    fn mean(&self, time: impl Fn(&Pair) -> f64) -> f64 {
        self.places.iter().map(time).sum::<f64>() / self.places.len() as f64
    }

    fn show(&self) {
        let all = Pair {
            ours: self.mean(|pair| pair.ours),
            plain: self.mean(|pair| pair.plain),
        };
        let (ours, plain) = (all.ours / 1000.0, all.plain / 1000.0);
        print!(
            "{:<66}{ours:>9.2}{plain:>9.2}{:>7.2}  ",
            self.what,
            all.ratio()
        );
        for pair in &self.places {
            print!("{:>6.2}", pair.ratio());
        }
        println!();
    }
}

/// Reads the rows of all places from standard input, and prints the mean of their times.
pub fn table() -> Result<(), String> {
    let mut text = String::new();
    std::io::stdin()
        .read_to_string(&mut text)
        .map_err(|error| format!("standard input: {error}"))?;
    println!(
        "\n{:<66}{:>9}{:>9}{:>7}   ratio at each place",
        "microseconds, mean of the places' medians", "ours", "plain", "ratio"
    );
    gathered(&text)?.iter().for_each(Row::show);
    Ok(())
}
