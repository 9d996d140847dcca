//! The packed sheet, read and written.

use super::{Reading, SLOTS};

const OPENING: &[u8; 4] = b"ISP1";
const PRICE_BOUND: i32 = 9_999_900;
const DEMAND_BOUND: i32 = 10_000_000;
const ZONE_BOUND: i32 = 100_000_000;

#[derive(Clone, Copy, Debug, PartialEq, Eq)]
pub struct Fault {
    pub number: u16,
    pub place: usize,
}

#[derive(Clone, Debug)]
pub struct Sheet {
    pub zone_net: i32,
    pub avoided: Option<i32>,
    pub slots: [Option<Reading>; SLOTS],
    pub fault: Option<Fault>,
}

struct Cursor<'a> {
    bytes: &'a [u8],
    at: usize,
}

impl Cursor<'_> {
    fn byte(&mut self) -> Result<u8, Fault> {
        match self.bytes.get(self.at) {
            Some(&byte) => {
                self.at += 1;
                Ok(byte)
            }
            None => Err(Fault {
                number: 1,
                place: self.bytes.len(),
            }),
        }
    }

    fn number(&mut self, bound: i32) -> Result<i32, Fault> {
        let place = self.at;
        let mut folded = 0;
        for group in 0..4 {
            let byte = self.byte()?;
            if byte == 0 && group > 0 {
                return Err(Fault { number: 3, place });
            }
            folded |= u32::from(byte & 127) << (7 * group);
            if byte < 128 {
                let number = (folded >> 1) as i32 ^ -((folded & 1) as i32);
                if number.abs() > bound {
                    return Err(Fault { number: 5, place });
                }
                return Ok(number);
            }
        }
        Err(Fault { number: 3, place })
    }

    fn opening(&mut self) -> Result<(), Fault> {
        for (place, &expected) in OPENING.iter().enumerate() {
            if self.byte()? != expected {
                return Err(Fault { number: 2, place });
            }
        }
        Ok(())
    }

    fn avoided(&mut self) -> Result<Option<i32>, Fault> {
        let place = self.at;
        match self.byte()? {
            0 => Ok(None),
            1 => Ok(Some(self.number(PRICE_BOUND)?)),
            _ => Err(Fault { number: 4, place }),
        }
    }

    fn slot(&mut self) -> Result<Option<Reading>, Fault> {
        let place = self.at;
        let lead = self.byte()?;
        if lead == 0 {
            return Ok(None);
        }
        if lead > 4 {
            return Err(Fault { number: 4, place });
        }
        let demand = self.number(DEMAND_BOUND)?;
        let up = if lead == 2 || lead == 4 {
            Some(self.number(PRICE_BOUND)?)
        } else {
            None
        };
        let down = if lead == 3 || lead == 4 {
            Some(self.number(PRICE_BOUND)?)
        } else {
            None
        };
        Ok(Some(Reading { demand, up, down }))
    }
}

impl Sheet {
    pub fn decode(bytes: &[u8]) -> Sheet {
        let mut sheet = Sheet {
            zone_net: 0,
            avoided: None,
            slots: [None; SLOTS],
            fault: None,
        };
        sheet.fault = sheet.fill(bytes).err();
        sheet
    }

    fn fill(&mut self, bytes: &[u8]) -> Result<(), Fault> {
        let mut cursor = Cursor { bytes, at: 0 };
        cursor.opening()?;
        let zone_net = cursor.number(ZONE_BOUND)?;
        self.avoided = cursor.avoided()?;
        self.zone_net = zone_net;
        for slot in &mut self.slots {
            *slot = cursor.slot()?;
        }
        if cursor.at < bytes.len() {
            return Err(Fault {
                number: 6,
                place: cursor.at,
            });
        }
        Ok(())
    }

    fn len(&self) -> usize {
        let head =
            OPENING.len() + number_len(self.zone_net) + 1 + self.avoided.map_or(0, number_len);
        head + self.slots.iter().map(slot_len).sum::<usize>()
    }

    /// The sheet's length; it is written where the buffer has room for it.
    pub fn write(&self, out: &mut [u8]) -> usize {
        let len = self.len();
        let Some(out) = out.get_mut(..len) else {
            return len;
        };
        let mut writer = Writer { out, at: 0 };
        for &byte in OPENING {
            writer.byte(byte);
        }
        writer.number(self.zone_net);
        match self.avoided {
            Some(price) => {
                writer.byte(1);
                writer.number(price);
            }
            None => writer.byte(0),
        }
        for slot in &self.slots {
            writer.slot(slot);
        }
        len
    }
}

fn fold(number: i32) -> u32 {
    ((number << 1) ^ (number >> 31)) as u32
}

fn number_len(number: i32) -> usize {
    match fold(number) {
        0..=0x7f => 1,
        0x80..=0x3fff => 2,
        0x4000..=0x1f_ffff => 3,
        _ => 4,
    }
}

fn slot_len(slot: &Option<Reading>) -> usize {
    match slot {
        None => 1,
        Some(Reading { demand, up, down }) => {
            1 + number_len(*demand) + up.map_or(0, number_len) + down.map_or(0, number_len)
        }
    }
}

struct Writer<'a> {
    out: &'a mut [u8],
    at: usize,
}

impl Writer<'_> {
    fn byte(&mut self, byte: u8) {
        self.out[self.at] = byte;
        self.at += 1;
    }

    fn number(&mut self, number: i32) {
        let mut rest = fold(number);
        while rest >= 128 {
            self.byte(rest as u8 | 128);
            rest >>= 7;
        }
        self.byte(rest as u8);
    }

    fn slot(&mut self, slot: &Option<Reading>) {
        let Some(reading) = slot else {
            return self.byte(0);
        };
        self.byte(match (reading.up, reading.down) {
            (None, None) => 1,
            (Some(_), None) => 2,
            (None, Some(_)) => 3,
            (Some(_), Some(_)) => 4,
        });
        self.number(reading.demand);
        for price in [reading.up, reading.down].into_iter().flatten() {
            self.number(price);
        }
    }
}
