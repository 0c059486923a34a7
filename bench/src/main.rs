//! Compares the proved reader with one written by hand: first whether they agree, then how long they take.

mod inputs;
mod plain;

use inputs::Input;
use std::env;
use std::hint::black_box;
use std::path::Path;

unsafe extern "C" {
    /// crates/agreement_c: 0 or the number of the refusal, whose place is written.
    fn agreement_read(bytes: *const u8, length: usize, place: &mut usize) -> u8;
    fn clock_gettime(clock: i32, time: &mut Time) -> i32;
}

#[repr(C)]
#[derive(Default)]
struct Time {
    seconds: i64,
    nanoseconds: i64,
}

type Answer = Option<(u8, usize)>;

#[inline(never)]
fn proved(bytes: &[u8]) -> Answer {
    let mut place = 0;
    match unsafe { agreement_read(bytes.as_ptr(), bytes.len(), &mut place) } {
        0 => None,
        number => Some((number, place)),
    }
}

#[inline(never)]
fn plain(bytes: &[u8]) -> Answer {
    plain::read(bytes).err().map(|refusal| (refusal.fault as u8, refusal.place))
}

/// The time that this thread has run, in nanoseconds: what other processes do meanwhile does not count.
fn now() -> f64 {
    const THREAD_CPUTIME: i32 = 3;
    let mut time = Time::default();
    assert_eq!(unsafe { clock_gettime(THREAD_CPUTIME, &mut time) }, 0);
    time.seconds as f64 * 1e9 + time.nanoseconds as f64
}

/// Nanoseconds for one reading, over so many.
fn timed(read: fn(&[u8]) -> Answer, bytes: &[u8], count: usize) -> f64 {
    let start = now();
    for _ in 0..count {
        black_box(read(black_box(bytes)));
    }
    (now() - start) / count as f64
}

/// How long a reader is measured in a round, in slices that take turns with the other reader's, so that some slice of each is
/// not disturbed.
const ROUND: f64 = 50e6;
const SLICES: usize = 10;

/// The best time of each reader for one reading.
fn measured(bytes: &[u8], rounds: usize) -> (f64, f64) {
    let readers: [fn(&[u8]) -> Answer; 2] = [plain, proved];
    let counts = readers.map(|read| {
        timed(read, bytes, 1000);
        (ROUND / SLICES as f64 / timed(read, bytes, 1000)) as usize + 1
    });
    let mut best = [f64::MAX; 2];
    for _ in 0..rounds * SLICES {
        for reader in 0..2 {
            best[reader] = best[reader].min(timed(readers[reader], bytes, counts[reader]));
        }
    }
    (best[0], best[1])
}

struct Random(u64);

impl Random {
    fn below(&mut self, end: usize) -> usize {
        self.0 ^= self.0 << 13;
        self.0 ^= self.0 >> 7;
        self.0 ^= self.0 << 17;
        (self.0 >> 11) as usize % end
    }
}

/// Bytes that mean something in many places.
const TELLING: [u8; 14] = [0, 1, 2, 3, 4, 7, 8, 9, 15, 16, 17, 64, 128, 255];

fn mutated(inputs: &[Input], random: &mut Random) -> Vec<u8> {
    let mut bytes = inputs[random.below(inputs.len())].bytes.clone();
    for _ in 0..1 + random.below(4) {
        let length = bytes.len();
        let at = random.below(length + 1);
        match random.below(8) {
            0 => bytes.truncate(at),
            1 => bytes.insert(at, TELLING[random.below(TELLING.len())]),
            2 => {
                let end = (at + random.below(24)).min(length);
                bytes.drain(at..end);
            }
            3 => {
                // a part once more, at another place
                let end = (at + random.below(200)).min(length);
                let part = bytes[at..end].to_vec();
                let to = random.below(length + 1);
                bytes.splice(to..to, part);
            }
            4 => {
                let other = &inputs[random.below(inputs.len())].bytes;
                let from = random.below(other.len());
                bytes.truncate(at);
                bytes.extend_from_slice(&other[from..]);
            }
            5 if at < length => bytes[at] ^= 1 << random.below(8),
            6 if at < length => bytes[at] = random.below(256) as u8,
            _ if at < length => bytes[at] = TELLING[random.below(TELLING.len())],
            _ => {}
        }
    }
    bytes
}

fn agree(bytes: &[u8]) -> Answer {
    let (by_hand, by_proof) = (plain(bytes), proved(bytes));
    assert_eq!(by_hand, by_proof, "plain and proved differ at {bytes:?}");
    by_hand
}

/// How often each number was answered, 0 where the bytes were taken.
fn compared(inputs: &[Input], count: usize) -> [usize; 18] {
    let mut answers = [0; 18];
    let mut random = Random(0x9e37_79b9_7f4a_7c15);
    for _ in 0..count {
        let answer = agree(&mutated(inputs, &mut random));
        answers[answer.map_or(0, |(number, _)| usize::from(number))] += 1;
    }
    // every cut of every input
    for input in inputs {
        for to in 0..input.bytes.len() {
            agree(&input.bytes[..to]);
        }
    }
    answers
}

/// A line for each input, where `read` is how many bytes were read, up to the place of the refusal; last the largest and the
/// mean ratio.
fn table(title: &str, inputs: &[Input], rounds: usize) {
    println!("\n{title:54} bytes   read       ns of      ns a byte of");
    println!("{:68} plain   proved  plain proved  ratio", "");
    let mut ratios = Vec::new();
    for Input { name, bytes } in inputs {
        let read = agree(bytes).map_or(bytes.len(), |(_, place)| (place + 1).min(bytes.len()));
        let (by_hand, by_proof) = measured(bytes, rounds);
        let each = read.max(1) as f64;
        let ratio = by_proof / by_hand;
        println!(
            "{name:54} {:5}  {read:5} {by_hand:7.1} {by_proof:8.1} {:6.2} {:6.2} {ratio:6.2}",
            bytes.len(),
            by_hand / each,
            by_proof / each,
        );
        ratios.push(ratio);
    }
    let largest = ratios.iter().copied().fold(0.0, f64::max);
    let mean = ratios.iter().sum::<f64>() / ratios.len() as f64;
    println!("{title}: largest ratio {largest:.2}, mean {mean:.2}");
}

fn main() {
    // The folder of examples; then how many rounds to measure, and how many changed inputs to compare on.
    let words: Vec<String> = env::args().collect();
    let number = |at: usize, otherwise: usize| words.get(at).map_or(otherwise, |word| word.parse().expect("a number"));
    let (rounds, mutations) = (number(2, 5), number(3, 400_000));

    let mut valid = inputs::examples(Path::new(&words[1]));
    valid.extend(inputs::built());
    for input in &valid {
        assert_eq!(agree(&input.bytes), None, "{}", input.name);
    }
    let chosen = [
        "sale.agreement",
        "63 payments, 8 slots",
        "forks 8 deep",
        "2 levels of 16 deposits, 8 slots",
        "2 levels of 16 settings",
        "longest",
    ];
    let few: Vec<Input> = valid
        .iter()
        .filter(|input| chosen.contains(&input.name.as_str()))
        .map(|input| Input { name: input.name.clone(), bytes: input.bytes.clone() })
        .collect();
    let refused = inputs::refused(&few, &|bytes| plain(bytes).map(|(_, place)| place));
    for input in &refused {
        assert!(agree(&input.bytes).is_some(), "{}", input.name);
    }

    let answers = compared(&valid, mutations);
    println!("both readers agree on {mutations} changed inputs; how often each number was answered (0 is taken):");
    println!("{:?}", &answers[..14]);
    if rounds > 0 {
        table("valid", &valid, rounds);
        table("refused", &refused, rounds);
    }
}
