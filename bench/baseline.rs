// The receiving end of a cell line in plain Rust, bit by bit from the rules: what the proved program is timed beside.
// Reads line octets from standard input and writes the payload of each user cell to standard output, or with --cells
// its header and payload. A summary goes to standard error.
use std::io::{self, BufWriter, Read, Write};

const HEADER_BITS: u64 = 40;
const PAYLOAD_BITS: usize = 384;
const CELL_BITS: u32 = 424;
const IDLE: u32 = 0x0000_0001;
const F3: u32 = 0x0000_0009;

// Remainder of x^8 times the header by x^8 + x^2 + x + 1, with 0x55 added.
fn check_octet(header: u32) -> u8 {
    let mut rest = 0u8;
    for place in (0..32).rev() {
        let top = (rest >> 7) ^ (header >> place) as u8 & 1;
        rest = (rest << 1) ^ if top == 1 { 0x07 } else { 0 };
    }
    rest ^ 0x55
}

fn syndrome(word: u64) -> u8 {
    check_octet((word >> 8) as u32) ^ word as u8
}

// The newest 31 bits of the generator, the oldest on top.
fn step(phase: u32) -> u32 {
    (phase << 1 | (phase >> 27 ^ phase >> 30) & 1) & 0x7FFF_FFFF
}

fn step_back(phase: u32) -> u32 {
    phase >> 1 | ((phase ^ phase >> 28) & 1) << 30
}

fn repeat(count: u32, phase: u32, one: fn(u32) -> u32) -> u32 {
    (0..count).fold(phase, |at, _| one(at))
}

// The bits of a phase whose sum is U(t-211): it is the oldest bit after 180 steps back.
fn hec8_row() -> u32 {
    (0..31)
        .map(|bit| (repeat(180, 1 << bit, step_back) >> 30) << bit)
        .sum()
}

// The syndrome that the samples of a right header leave: U(t-211) and U(t+1) in HEC8 and HEC7.
fn samples(hec8_row: u32, phase: u32) -> u8 {
    let hec8 = (phase & hec8_row).count_ones() & 1;
    let hec7 = step(step(phase)) & 1;
    (hec8 << 7 | hec7 << 6) as u8
}

// The phase that has the 31 samples, by elimination: each sample is the sum of some bits of the phase.
fn find_phase(hec8_row: u32, word: u32) -> Option<u32> {
    let mut rows: Vec<(u32, u32)> = (0..31).map(|place| (0, word >> place & 1)).collect();
    for bit in 0..31 {
        let mut phase = 1 << bit;
        for cell in 0..16 {
            let pair = samples(hec8_row, phase);
            rows[2 * cell].0 |= u32::from(pair >> 6 & 1) << bit;
            if cell < 15 {
                rows[2 * cell + 1].0 |= u32::from(pair >> 7) << bit;
            }
            phase = repeat(CELL_BITS, phase, step_back);
        }
    }
    for bit in 0..31 {
        let pivot = (bit..31).find(|&row| rows[row].0 >> bit & 1 == 1)?;
        rows.swap(bit, pivot);
        for row in 0..31 {
            if row != bit && rows[row].0 >> bit & 1 == 1 {
                rows[row].0 ^= rows[bit].0;
                rows[row].1 ^= rows[bit].1;
            }
        }
    }
    Some((0..31).fold(0, |phase, bit| phase | rows[bit].1 << bit))
}

#[derive(Debug, Clone, Copy, PartialEq)]
enum Delineation {
    Hunt,
    Presync(u8),
    Sync(u8),
}

#[derive(Debug, Clone, Copy, PartialEq)]
enum Descrambler {
    Acquisition,
    Verification,
    Steady,
}

// A cell whose payload is coming, if it is kept.
struct Cell {
    header: u32,
    payload: [u8; 48],
    bits: usize,
}

struct End {
    word: u64,
    bits: u64,
    delineation: Delineation,
    descrambler: Descrambler,
    confidence: u8,
    correction: bool,
    // bits to the last one of the next header
    to_header: u32,
    sample_word: u32,
    // its newest bit is of the moment of the last bit that came, once a phase was found
    generator: u32,
    hec8_row: u32,
    kept: Option<Cell>,
    users: u64,
    mended: u64,
    discarded: u64,
    f3: u64,
}

impl End {
    fn new() -> End {
        End {
            word: 0,
            bits: 0,
            delineation: Delineation::Hunt,
            descrambler: Descrambler::Acquisition,
            confidence: 0,
            correction: true,
            to_header: HEADER_BITS as u32,
            sample_word: 0,
            generator: 0,
            hec8_row: hec8_row(),
            kept: None,
            users: 0,
            mended: 0,
            discarded: 0,
            f3: 0,
        }
    }

    // One bit; a user cell that ends with it.
    fn bit(&mut self, bit: u8) -> Option<Cell> {
        self.word = (self.word << 1 | u64::from(bit)) & 0xFF_FFFF_FFFF;
        self.bits += 1;
        self.generator = step(self.generator);
        let mut ended = false;
        if let Some(cell) = &mut self.kept {
            let octet = &mut cell.payload[cell.bits / 8];
            *octet = *octet << 1 | bit ^ (self.generator & 1) as u8;
            cell.bits += 1;
            ended = cell.bits == PAYLOAD_BITS;
        }
        self.to_header -= 1;
        if self.to_header == 0 {
            self.header();
            self.to_header = if self.delineation == Delineation::Hunt {
                1
            } else {
                CELL_BITS
            };
        }
        if !ended {
            return None;
        }
        let cell = self.kept.take()?;
        match cell.header {
            IDLE => None,
            F3 => {
                self.f3 += 1;
                None
            }
            _ => {
                self.users += 1;
                Some(cell)
            }
        }
    }

    fn header(&mut self) {
        let word = self.word;
        let mut left = syndrome(word);
        let agrees = left & 0x3F == 0;
        self.sample_word = (self.sample_word << 2 | u32::from(left >> 6)) & 0x7FFF_FFFF;
        let phase = repeat(8, self.generator, step_back);
        let mut wrong = !agrees;
        let mut good = None;
        let before = self.descrambler;
        match before {
            Descrambler::Acquisition if !agrees => self.confidence = 0,
            Descrambler::Acquisition => {
                self.confidence += 1;
                if self.confidence == 16 {
                    match find_phase(self.hec8_row, self.sample_word) {
                        Some(phase) => {
                            self.generator = repeat(8, phase, step);
                            self.descrambler = Descrambler::Verification;
                        }
                        None => self.confidence = 0,
                    }
                }
            }
            Descrambler::Verification if !agrees => {}
            Descrambler::Verification => {
                if left == samples(self.hec8_row, phase) {
                    self.confidence += 1;
                } else {
                    self.confidence -= 1;
                }
                if self.confidence == 24 {
                    self.descrambler = Descrambler::Steady;
                    self.correction = true;
                } else if self.confidence < 8 {
                    self.acquire();
                }
            }
            Descrambler::Steady => {
                left ^= samples(self.hec8_row, phase);
                wrong = left != 0;
                good = self.mend(word, left);
                if matches!(left, 0x80 | 0x40 | 0xC0) {
                    self.confidence -= 1;
                } else {
                    self.confidence = 24.min(self.confidence + 1);
                }
                if self.confidence < 16 {
                    self.acquire();
                }
            }
        }
        self.delineation = match self.delineation {
            Delineation::Hunt if wrong => Delineation::Hunt,
            Delineation::Hunt => Delineation::Presync(0),
            Delineation::Presync(_) if wrong => Delineation::Hunt,
            Delineation::Presync(7) => Delineation::Sync(0),
            Delineation::Presync(agreeing) => Delineation::Presync(agreeing + 1),
            Delineation::Sync(6) if wrong => Delineation::Hunt,
            Delineation::Sync(row) if wrong => Delineation::Sync(row + 1),
            Delineation::Sync(_) => Delineation::Sync(0),
        };
        if self.delineation == Delineation::Hunt {
            self.acquire();
        }
        if before == Descrambler::Steady && self.descrambler == Descrambler::Steady {
            let mask = step_back(phase) >> 30 << 31 | phase;
            self.kept = good.map(|header| Cell {
                header: header ^ mask,
                payload: [0; 48],
                bits: 0,
            });
        }
    }

    fn acquire(&mut self) {
        self.descrambler = Descrambler::Acquisition;
        self.confidence = 0;
    }

    // The scrambled header if it is right or can be mended.
    fn mend(&mut self, word: u64, left: u8) -> Option<u32> {
        let right = (word >> 8) as u32;
        if left == 0 {
            self.correction = true;
            return Some(right);
        }
        let one = (0..40).find(|place| syndrome(word ^ 1 << place) ^ syndrome(word) == left);
        let mended = one
            .filter(|_| self.correction)
            .map(|place| ((word ^ 1 << place) >> 8) as u32);
        self.correction = false;
        match mended {
            Some(_) => self.mended += 1,
            None => self.discarded += 1,
        }
        mended
    }
}

fn main() -> io::Result<()> {
    let cells = std::env::args().any(|word| word == "--cells");
    let mut input = io::stdin().lock();
    let mut output = BufWriter::with_capacity(1 << 16, io::stdout().lock());
    let mut end = End::new();
    let mut buffer = [0u8; 4096];
    loop {
        let count = input.read(&mut buffer)?;
        if count == 0 {
            break;
        }
        for octet in &buffer[..count] {
            for place in (0..8).rev() {
                if let Some(cell) = end.bit(octet >> place & 1) {
                    if cells {
                        output.write_all(&cell.header.to_be_bytes())?;
                    }
                    output.write_all(&cell.payload)?;
                }
            }
        }
    }
    output.flush()?;
    eprintln!("octets {}, bits {}", end.bits / 8, end.bits);
    eprintln!(
        "user cells {}, mended {}, discarded {}, F3 cells {}",
        end.users, end.mended, end.discarded, end.f3
    );
    let mode = if end.correction {
        "correction"
    } else {
        "detection"
    };
    eprintln!(
        "{:?}, {:?} with confidence {}, {mode} mode",
        end.delineation, end.descrambler, end.confidence
    );
    Ok(())
}
