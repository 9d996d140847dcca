//! What the slots of a quarter sum up to.

use super::sheet::Sheet;
use super::{Reading, CYCLES, SLOTS};

/// The first slot that is not reported.
#[derive(Clone, Copy, Debug, PartialEq, Eq)]
pub struct Unreported {
    pub slot: usize,
}

#[derive(Clone, Copy, Debug, PartialEq, Eq)]
pub enum Direction {
    Up,
    Down,
}

/// A manual slot: its volume, 0 unless it counts, and its formed price.
#[derive(Clone, Copy, Debug, Default)]
pub struct Manual {
    pub volume: i64,
    pub price: Option<i32>,
}

/// One direction: V, S and the extreme price of the counting cycles, and the manual slots.
#[derive(Clone, Copy, Debug, Default)]
pub struct Side {
    pub volume: i64,
    pub value: i64,
    pub extreme: Option<i32>,
    pub manual: [Manual; 3],
}

#[derive(Clone, Copy, Debug)]
pub struct Figures {
    pub local_net: i64,
    pub zone_net: i32,
    pub avoided: Option<i32>,
    pub up: Side,
    pub down: Side,
}

impl Side {
    fn count_cycle(&mut self, volume: i64, price: i32, farther: fn(i32, i32) -> i32) {
        self.volume += volume;
        self.value += volume * i64::from(price);
        self.extreme = Some(
            self.extreme
                .map_or(price, |extreme| farther(extreme, price)),
        );
    }
}

impl Figures {
    pub fn of(sheet: &Sheet) -> Result<Figures, Unreported> {
        let mut figures = Figures {
            local_net: 0,
            zone_net: sheet.zone_net,
            avoided: sheet.avoided,
            up: Side::default(),
            down: Side::default(),
        };
        let (cycles, manual) = sheet.slots.split_at(CYCLES);
        for (slot, told) in cycles.iter().enumerate() {
            figures.cycle(told.as_ref().ok_or(Unreported { slot })?);
        }
        for (index, told) in manual.iter().enumerate() {
            figures.manual(
                index,
                told.as_ref().ok_or(Unreported {
                    slot: CYCLES + index,
                })?,
            );
        }
        Ok(figures)
    }

    fn cycle(&mut self, reading: &Reading) {
        let demand = i64::from(reading.demand);
        self.local_net += demand;
        match (reading.up, reading.down) {
            (Some(price), _) if demand > 0 => self.up.count_cycle(demand, price, i32::max),
            (_, Some(price)) if demand < 0 => self.down.count_cycle(-demand, price, i32::min),
            _ => {}
        }
    }

    fn manual(&mut self, index: usize, reading: &Reading) {
        const WEIGHT: i64 = CYCLES as i64;
        let energy = WEIGHT * i64::from(reading.demand);
        self.local_net += energy;
        let volume =
            |price: Option<i32>, energy: i64| if price.is_some() { energy.max(0) } else { 0 };
        self.up.manual[index] = Manual {
            volume: volume(reading.up, energy),
            price: reading.up,
        };
        self.down.manual[index] = Manual {
            volume: volume(reading.down, -energy),
            price: reading.down,
        };
    }

    pub fn side(&self, direction: Direction) -> &Side {
        match direction {
            Direction::Up => &self.up,
            Direction::Down => &self.down,
        }
    }
}

const _: () = assert!(SLOTS == CYCLES + 3);
