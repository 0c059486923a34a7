//! The inputs: agreements of many shapes and sizes, and what becomes of them by one fault.

use std::fs;
use std::path::Path;

pub struct Input {
    pub name: String,
    pub bytes: Vec<u8>,
}

/// Writes agreements for so many parties and slots.
struct Writer {
    parties: u8,
    slots: u8,
    bytes: Vec<u8>,
    turn: u32,
}

impl Writer {
    fn new(parties: u8, slots: u8) -> Self {
        Self { parties, slots, bytes: vec![parties, slots], turn: 0 }
    }

    fn next(&mut self) -> u32 {
        self.turn = self.turn.wrapping_mul(1_664_525).wrapping_add(1_013_904_223);
        self.turn >> 8
    }

    fn party(&mut self) {
        let party = self.next() % u32::from(self.parties);
        self.bytes.push(party as u8);
    }

    fn amount(&mut self) {
        let base = self.next() % 1_000_001 * 1000;
        self.bytes.extend(base.to_le_bytes());
        for _ in 0..self.slots {
            let cents = self.next() % 1001;
            self.bytes.extend((cents as u16).to_le_bytes());
        }
    }

    fn over(&mut self) {
        self.bytes.push(0);
    }

    fn payment(&mut self) {
        self.bytes.push(1);
        self.party();
        self.party();
        self.amount();
    }

    fn payments(&mut self, count: usize) {
        for _ in 0..count {
            self.payment();
        }
        self.over();
    }

    fn fork(&mut self) {
        let slot = self.next() % u32::from(self.slots);
        let value = self.next() % 1_000_001;
        self.bytes.extend([2, slot as u8]);
        self.bytes.extend(value.to_le_bytes());
    }

    /// Forks on both sides, so many deep, each way ending after so many payments.
    fn forks(&mut self, deep: usize, payments: usize) {
        if deep == 0 {
            return self.payments(payments);
        }
        self.fork();
        self.forks(deep - 1, payments);
        self.forks(deep - 1, payments);
    }

    fn waiting(&mut self, acts: u8) {
        let day = self.next() as u16;
        self.bytes.push(3);
        self.bytes.extend(day.to_le_bytes());
        self.bytes.push(acts);
    }

    fn deposit(&mut self, party: u8, account: u8) {
        self.bytes.extend([1, party, account]);
        self.amount();
    }

    fn setting(&mut self, party: u8, slot: u8) {
        let low = self.next() % 1_000_001;
        let high = low + self.next() % (1_000_001 - low);
        self.bytes.extend([2, party, slot]);
        self.bytes.extend(low.to_le_bytes());
        self.bytes.extend(high.to_le_bytes());
    }

    /// Waitings inside waitings, so many levels, each with so many acts: deposits, or settings of two slots, or both by turns.
    fn waitings(&mut self, levels: u8, acts: u8, settings: [bool; 2], payments: usize) {
        if levels == 0 {
            return self.payments(payments);
        }
        self.waiting(acts);
        for act in 0..acts {
            if settings[usize::from(act % 2)] {
                self.setting(act / 2, 2 * (levels - 1) + act % 2);
            } else {
                self.deposit(act / 2, act % 2);
            }
            self.waitings(levels - 1, acts, settings, payments);
        }
        self.waitings(levels - 1, acts, settings, payments);
    }

    fn done(self, name: &str) -> Input {
        Input { name: name.into(), bytes: self.bytes }
    }
}

/// Party 0 deposits 10,000 cents until day 5; in both cases it is over.
fn deposit() -> Input {
    let bytes = vec![2, 0, 3, 5, 0, 1, 1, 0, 0, 0x10, 0x27, 0, 0, 0, 0];
    Input { name: "a deposit".into(), bytes }
}

pub fn examples(folder: &Path) -> Vec<Input> {
    let mut files: Vec<_> = fs::read_dir(folder)
        .expect("the folder examples")
        .map(|entry| entry.expect("a file of examples").path())
        .filter(|path| path.extension().is_some_and(|end| end == "agreement"))
        .collect();
    files.sort();
    files
        .iter()
        .map(|path| Input {
            name: path.file_name().unwrap().to_string_lossy().into_owned(),
            bytes: fs::read(path).expect("an example"),
        })
        .collect()
}

pub fn built() -> Vec<Input> {
    let mut all = vec![deposit()];
    let mut add = |name: &str, parties: u8, slots: u8, write: &dyn Fn(&mut Writer)| {
        let mut writer = Writer::new(parties, slots);
        write(&mut writer);
        all.push(writer.done(name));
    };
    add("2 payments, no slots", 2, 0, &|w| w.payments(2));
    add("8 payments, no slots", 2, 0, &|w| w.payments(8));
    add("63 payments, no slots", 2, 0, &|w| w.payments(63));
    add("63 payments, 1 slot", 2, 1, &|w| w.payments(63));
    add("63 payments, 8 slots", 8, 8, &|w| w.payments(63));
    add("forks 3 deep", 2, 1, &|w| w.forks(3, 0));
    add("forks 8 deep", 8, 8, &|w| w.forks(8, 0));
    add("forks 6 deep, 5 payments each", 8, 8, &|w| w.forks(6, 5));
    add("63 forks, one inside the other", 8, 8, &|w| {
        for _ in 0..63 {
            w.fork();
            w.over();
        }
        w.over();
    });
    add("a waiting, 16 deposits", 8, 2, &|w| w.waitings(1, 16, [false, false], 0));
    add("a waiting, 16 settings", 8, 2, &|w| w.waitings(1, 16, [true, true], 0));
    add("a waiting, 16 acts, 8 payments each", 8, 2, &|w| w.waitings(1, 16, [false, true], 8));
    add("2 levels of 16 deposits, no slots", 8, 0, &|w| w.waitings(2, 16, [false, false], 0));
    add("2 levels of 16 deposits, 8 slots", 8, 8, &|w| w.waitings(2, 16, [false, false], 0));
    add("2 levels of 16 settings", 8, 4, &|w| w.waitings(2, 16, [true, true], 0));
    add("2 levels of 16 acts", 8, 4, &|w| w.waitings(2, 16, [false, true], 0));
    add("4 levels of 3 acts", 8, 8, &|w| w.waitings(4, 3, [true, false], 0));
    add("60 waitings of 1 deposit", 8, 8, &|w| {
        for _ in 0..60 {
            w.waiting(1);
            w.deposit(0, 0);
            w.over();
        }
        w.over();
    });
    add("longest", 8, 8, &|w| {
        w.waiting(16);
        for act in 0..16 {
            w.deposit(act / 2, act % 2);
            w.payments(29);
        }
        w.payments(30);
    });
    all
}

/// The input with the byte at or behind `from` changed so that reading ends there.
fn broken(input: &Input, from: usize, what: &str, reads: &dyn Fn(&[u8]) -> Option<usize>) -> Option<Input> {
    (from..input.bytes.len()).find_map(|at| {
        let mut bytes = input.bytes.clone();
        bytes[at] = 255;
        reads(&bytes).filter(|place| *place >= from)?;
        Some(Input { name: format!("{}: {what}", input.name), bytes })
    })
}

/// Each of some agreements with a fault early, in the middle and at the end, cut in the middle and before its last byte, and
/// with a byte too many. `reads` tells the place of the refusal.
pub fn refused(valid: &[Input], reads: &dyn Fn(&[u8]) -> Option<usize>) -> Vec<Input> {
    let mut all = Vec::new();
    for input in valid {
        let length = input.bytes.len();
        let cut = |to: usize, what: &str| Input { name: format!("{}: {what}", input.name), bytes: input.bytes[..to].to_vec() };
        all.extend(broken(input, 2, "fault early", reads));
        all.extend(broken(input, length / 2, "fault in the middle", reads));
        all.extend(broken(input, length - 1, "fault at the end", reads));
        all.push(cut(length / 2, "cut in the middle"));
        all.push(cut(length - 1, "cut at the end"));
        let mut more = cut(length, "a byte too many");
        more.bytes.push(0);
        all.push(more);
    }
    all
}
