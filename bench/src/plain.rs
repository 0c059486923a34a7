//! The reader as it would be written by hand, with the checks of docs/FORMATS.md.

#[derive(Clone, Copy, Debug, PartialEq, Eq)]
#[repr(u8)]
pub enum Fault {
    Parties = 1,
    Slots,
    Cut,
    Kind,
    TooLarge,
    Party,
    Slot,
    Cents,
    Value,
    ActCount,
    SetTwice,
    Alike,
    Surplus,
}

#[derive(Clone, Copy, Debug, PartialEq, Eq)]
pub struct Refusal {
    pub fault: Fault,
    pub place: usize,
}

const LONGEST: usize = 16_384;
const MOST_THINGS: u16 = 512;
const DEEPEST: u8 = 64;
const MOST_ACTS: u8 = 16;
const MOST_BASE: u32 = 1_000_000_000;
const MOST_PER_UNIT: u16 = 1_000;
const MOST_VALUE: u32 = 1_000_000;

fn refuse<T>(fault: Fault, place: usize) -> Result<T, Refusal> {
    Err(Refusal { fault, place })
}

/// The pairs of a party and an account or slot that were seen, a bit for each.
struct Seen {
    deposits: u64,
    settings: u64,
}

struct Reader<'a> {
    bytes: &'a [u8],
    parties: u8,
    slots: u8,
    things: u16,
}

impl Reader<'_> {
    fn byte(&self, at: usize) -> Result<u8, Refusal> {
        match self.bytes.get(at) {
            Some(byte) => Ok(*byte),
            None => refuse(Fault::Cut, self.bytes.len()),
        }
    }

    fn chunk<const N: usize>(&self, at: usize) -> Result<[u8; N], Refusal> {
        match self.bytes.get(at..).and_then(|rest| rest.first_chunk::<N>()) {
            Some(chunk) => Ok(*chunk),
            None => refuse(Fault::Cut, self.bytes.len()),
        }
    }

    fn party(&self, at: usize) -> Result<u8, Refusal> {
        let party = self.byte(at)?;
        if party >= self.parties {
            return refuse(Fault::Party, at);
        }
        Ok(party)
    }

    fn slot(&self, at: usize) -> Result<u8, Refusal> {
        let slot = self.byte(at)?;
        if slot >= self.slots {
            return refuse(Fault::Slot, at);
        }
        Ok(slot)
    }

    fn value(&self, at: usize, lowest: u32) -> Result<u32, Refusal> {
        let value = u32::from_le_bytes(self.chunk(at)?);
        if value > MOST_VALUE || value < lowest {
            return refuse(Fault::Value, at);
        }
        Ok(value)
    }

    /// The place behind the amount.
    fn amount(&self, at: usize) -> Result<usize, Refusal> {
        if u32::from_le_bytes(self.chunk(at)?) > MOST_BASE {
            return refuse(Fault::Cents, at);
        }
        let mut at = at + 4;
        for _ in 0..self.slots {
            if u16::from_le_bytes(self.chunk(at)?) > MOST_PER_UNIT {
                return refuse(Fault::Cents, at);
            }
            at += 2;
        }
        Ok(at)
    }

    /// Marks the act, by its party and its account or slot, unless it was marked before.
    fn alike(&self, at: usize, seen: &mut u64) -> Result<(), Refusal> {
        if let Some([party @ 0..8, object @ 0..8]) = self.bytes.get(at + 1..at + 3) {
            let mark = 1 << (party * 8 + object);
            if *seen & mark != 0 {
                return refuse(Fault::Alike, at);
            }
            *seen |= mark;
        }
        Ok(())
    }

    /// The place behind the act and its continuation.
    fn act(&mut self, at: usize, depth: u8, used: u8, seen: &mut Seen) -> Result<usize, Refusal> {
        match self.byte(at)? {
            1 => {
                self.alike(at, &mut seen.deposits)?;
                self.party(at + 1)?;
                self.party(at + 2)?;
                let at = self.amount(at + 3)?;
                self.thing(at, depth, used)
            }
            2 => {
                self.alike(at, &mut seen.settings)?;
                self.party(at + 1)?;
                let slot = self.slot(at + 2)?;
                if used & 1 << slot != 0 {
                    return refuse(Fault::SetTwice, at + 2);
                }
                let low = self.value(at + 3, 0)?;
                self.value(at + 7, low)?;
                self.thing(at + 11, depth, used | 1 << slot)
            }
            _ => refuse(Fault::Kind, at),
        }
    }

    /// The place behind the thing.
    fn thing(&mut self, at: usize, depth: u8, used: u8) -> Result<usize, Refusal> {
        let kind = self.byte(at)?;
        if kind > 3 {
            return refuse(Fault::Kind, at);
        }
        if depth > DEEPEST || self.things >= MOST_THINGS {
            return refuse(Fault::TooLarge, at);
        }
        self.things += 1;
        match kind {
            0 => Ok(at + 1),
            1 => {
                self.party(at + 1)?;
                self.party(at + 2)?;
                let at = self.amount(at + 3)?;
                self.thing(at, depth + 1, used)
            }
            2 => {
                self.slot(at + 1)?;
                self.value(at + 2, 0)?;
                let at = self.thing(at + 6, depth + 1, used)?;
                self.thing(at, depth + 1, used)
            }
            _ => {
                self.chunk::<2>(at + 1)?;
                let count = self.byte(at + 3)?;
                if count < 1 || count > MOST_ACTS {
                    return refuse(Fault::ActCount, at + 3);
                }
                let mut seen = Seen { deposits: 0, settings: 0 };
                let mut at = at + 4;
                for _ in 0..count {
                    at = self.act(at, depth + 1, used, &mut seen)?;
                }
                self.thing(at, depth + 1, used)
            }
        }
    }
}

fn whole(bytes: &[u8]) -> Result<(), Refusal> {
    let mut reader = Reader { bytes, parties: 0, slots: 0, things: 0 };
    reader.parties = reader.byte(0)?;
    if reader.parties < 1 || reader.parties > 8 {
        return refuse(Fault::Parties, 0);
    }
    reader.slots = reader.byte(1)?;
    if reader.slots > 8 {
        return refuse(Fault::Slots, 1);
    }
    let end = reader.thing(2, 1, 0)?;
    if end < bytes.len() {
        return refuse(Fault::Surplus, end);
    }
    Ok(())
}

/// Whether the bytes are an agreement, or of the checks that fail the first.
pub fn read(bytes: &[u8]) -> Result<(), Refusal> {
    let too_long = bytes.len() > LONGEST;
    match whole(bytes) {
        Err(refusal) if refusal.place <= LONGEST => Err(refusal),
        Ok(()) if !too_long => Ok(()),
        _ => refuse(Fault::Surplus, LONGEST),
    }
}
