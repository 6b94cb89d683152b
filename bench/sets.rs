//! The input: sets of member files on disk, each with a docket, made the same way every time.

use std::fs;
use std::io;
use std::path::Path;

/// Soles, in the morning of 5 March 2024.
const DATE: u32 = 20_240_305;
const CYCLE: u8 = 1;
const CURRENCY: u8 = 1;

/// The kinds of files, with the tag and the batch kind that go with each.
#[derive(Clone, Copy)]
struct Kind {
    number: u8,
    batch_kind: u8,
    tag: u8,
}

const PRESENTATIONS: Kind = Kind { number: 1, batch_kind: 32, tag: 6 };
const RETURNS: Kind = Kind { number: 2, batch_kind: 31, tag: 7 };

/// Whom the records of a set run between.
#[derive(Clone, Copy, PartialEq)]
pub enum Payments {
    /// Everybody pays everybody, at random.
    Random,
    /// The first member pays all others, by types 220 and 221 in turn.
    OnePayer,
    /// Each member pays the next one, the last pays nobody.
    Chain,
    /// Each member pays the next one, the last pays the first, and the first pays one centimo more than it receives:
    /// a record that goes takes one of the next member with it, round and round.
    Ring,
}

/// Which references an origin gives its records.
#[derive(Clone, Copy, PartialEq)]
pub enum References {
    /// 1, 2, 3 and so on.
    Rising,
    /// As many different numbers, all over the 32 bits.
    Scattered,
}

/// A set of files that are all taken in: so many rows of so many members, in files of so many rows.
#[derive(Clone, Copy)]
pub struct Plan {
    pub members: usize,
    pub rows: usize,
    pub rows_in_file: usize,
    pub payments: Payments,
    pub references: References,
}

/// A presentation or a return. Which fields a file has, and in which order, depends on its kind.
#[derive(Clone, Copy)]
struct Row {
    record_type: u8,
    /// The other member of a presentation, the originator in a return.
    party: u16,
    reference: u32,
    amount: u32,
    commission: u16,
    cause: u8,
}

/// A generator of numbers that is the same on every machine.
struct Numbers(u64);

impl Numbers {
    fn next(&mut self) -> u64 {
        self.0 = self.0.wrapping_add(0x9E37_79B9_7F4A_7C15);
        let mut x = self.0;
        x = (x ^ (x >> 30)).wrapping_mul(0xBF58_476D_1CE4_E5B9);
        x = (x ^ (x >> 27)).wrapping_mul(0x94D0_49BB_1331_11EB);
        x ^ (x >> 31)
    }

    fn below(&mut self, bound: usize) -> usize {
        (self.next() % bound as u64) as usize
    }

    /// True once in so many times.
    fn rarely(&mut self, times: usize) -> bool {
        self.below(times) == 0
    }
}

/// The codes of the members: as far apart as they can be, so that the roll has gaps.
fn roll(members: usize) -> Vec<u16> {
    let gap = 998 / members;
    (0..members).map(|place| (place * gap + 1) as u16).collect()
}

/// The n-th reference of an origin, from 0. An odd factor maps different numbers to different ones, and only 0 to 0.
fn reference(kind: References, n: u32) -> u32 {
    match kind {
        References::Rising => n + 1,
        References::Scattered => (n + 1).wrapping_mul(0x9E37_79B1),
    }
}

impl Plan {
    /// How many members pay.
    fn payers(&self) -> usize {
        match self.payments {
            Payments::Random | Payments::Ring => self.members,
            Payments::OnePayer => 1,
            Payments::Chain => self.members - 1,
        }
    }

    /// The place of the member that a payer's n-th record goes to.
    fn receiver(&self, payer: usize, n: u32, numbers: &mut Numbers) -> usize {
        let step = match self.payments {
            Payments::Random => numbers.below(self.members - 1),
            Payments::OnePayer => n as usize % (self.members - 1),
            Payments::Chain | Payments::Ring => 0,
        };
        (payer + 1 + step) % self.members
    }

    /// A payer's n-th record.
    fn row(&self, roll: &[u16], payer: usize, n: u32, numbers: &mut Numbers) -> Row {
        let party = roll[self.receiver(payer, n, numbers)];
        let reference = reference(self.references, n);
        if self.payments == Payments::Random {
            let record_type = 220 + numbers.below(6) as u8;
            let amount = 1 + numbers.below(30_000_000) as u32;
            let commission = numbers.below(10_001) as u16;
            return Row { record_type, party, reference, amount, commission, cause: 0 };
        }
        let centimo = self.payments == Payments::Ring && payer == 0 && n == 0;
        Row {
            record_type: 220 + (n % 2) as u8,
            party,
            reference,
            amount: 100 + u32::from(centimo),
            commission: 0,
            cause: 0,
        }
    }

    /// The files in the order of sending: the payers send one each in turn.
    fn files(&self) -> Vec<Vec<u8>> {
        let roll = roll(self.members);
        let mut numbers = Numbers(0);
        let mut sent = vec![0; self.payers()];
        let mut last = vec![0; self.payers()];
        let mut files = Vec::new();
        let mut left = self.rows;
        while left > 0 {
            let payer = files.len() % self.payers();
            let mut rows = Vec::new();
            for _ in 0..self.rows_in_file.min(left) {
                rows.push(self.row(&roll, payer, sent[payer], &mut numbers));
                sent[payer] += 1;
            }
            left -= rows.len();
            last[payer] += 1;
            files.push(member_file(PRESENTATIONS, roll[payer], last[payer], &rows));
        }
        files
    }
}

fn put_totals(file: &mut Vec<u8>, tag: u8, rows: &[Row]) {
    let amounts: u64 = rows.iter().map(|row| u64::from(row.amount)).sum();
    let commissions: u64 = rows.iter().map(|row| u64::from(row.commission)).sum();
    let parties: u32 = rows.iter().map(|row| u32::from(row.party)).sum();
    // Behind the head stand the number of the only batch, or the number of batches, which are both 1.
    file.extend([tag, 0, 24, 0, 1]);
    file.extend((rows.len() as u16).to_be_bytes());
    file.extend(amounts.to_be_bytes());
    file.extend(commissions.to_be_bytes());
    file.extend(parties.to_be_bytes());
}

fn put_row(file: &mut Vec<u8>, kind: Kind, row: &Row) {
    file.extend([kind.tag, 0, 13]);
    if kind.tag == PRESENTATIONS.tag {
        file.push(row.record_type);
    }
    file.extend(row.party.to_be_bytes());
    file.extend(row.reference.to_be_bytes());
    file.extend(row.amount.to_be_bytes());
    file.extend(row.commission.to_be_bytes());
    if kind.tag == RETURNS.tag {
        file.push(row.cause);
    }
}

/// The bytes of a member file with these rows in one batch.
fn member_file(kind: Kind, origin: u16, number: u8, rows: &[Row]) -> Vec<u8> {
    let mut file = vec![1, 0, 10, kind.number, CURRENCY, CYCLE];
    file.extend(origin.to_be_bytes());
    file.extend(DATE.to_be_bytes());
    file.push(number);
    file.extend([5, 0, 3, kind.batch_kind, 0, 1]);
    for row in rows {
        put_row(&mut file, kind, row);
    }
    put_totals(&mut file, 8, rows);
    put_totals(&mut file, 9, rows);
    file
}

/// A presentation of which one part or another may be wrong.
fn odd_presentation(roll: &[u16], numbers: &mut Numbers) -> Row {
    Row {
        record_type: 219 + numbers.below(8) as u8,
        party: if numbers.rarely(8) { numbers.below(1_100) as u16 } else { roll[numbers.below(roll.len())] },
        reference: numbers.below(2_000) as u32,
        amount: if numbers.rarely(8) { 0 } else { numbers.below(32_000_000) as u32 },
        commission: if numbers.rarely(4) { 0 } else { numbers.below(10_500) as u16 },
        cause: 0,
    }
}

/// The return of a record that the sender may have received, of which one part or another may be wrong.
fn odd_return(presented: &[(u16, Row)], sender: u16, numbers: &mut Numbers) -> Row {
    let mut at = numbers.below(presented.len());
    // Mostly one that is addressed to the sender, if there is any behind that place.
    if !numbers.rarely(8) {
        at += presented[at..].iter().position(|(_, row)| row.party == sender).unwrap_or(0);
    }
    let (origin, row) = presented[at];
    Row {
        party: if numbers.rarely(8) { origin ^ 1 } else { origin },
        amount: row.amount ^ u32::from(numbers.rarely(8)),
        commission: row.commission ^ u16::from(numbers.rarely(8)),
        cause: numbers.below(23) as u8,
        ..row
    }
}

/// Breaks a file at random: a byte turned, some bytes cut off, or one put behind.
fn damage(file: &mut Vec<u8>, numbers: &mut Numbers) {
    match numbers.below(4) {
        0 => file.truncate(numbers.below(file.len())),
        1 => file.push(numbers.next() as u8),
        _ => {
            let at = numbers.below(file.len());
            file[at] ^= 1 << numbers.below(8);
        }
    }
}

/// Files with every fault that is easily met, to show that two engines judge alike: wrong rows, returns, numbers
/// out of order, damaged bytes, and in the end more rows than there is room for.
fn odd_files() -> Vec<Vec<u8>> {
    let roll = roll(8);
    let mut numbers = Numbers(1);
    let mut last = [[0u8; 2]; 8];
    let mut presented = Vec::new();
    let mut files = Vec::new();
    for _ in 0..1_600 {
        let sender = numbers.below(roll.len());
        let returns = !presented.is_empty() && numbers.rarely(3);
        let kind = if returns { RETURNS } else { PRESENTATIONS };
        let mut rows = Vec::new();
        for _ in 0..numbers.below(30) {
            if returns {
                rows.push(odd_return(&presented, roll[sender], &mut numbers));
            } else {
                let row = odd_presentation(&roll, &mut numbers);
                rows.push(row);
                presented.push((roll[sender], row));
            }
        }
        let number = last[sender][usize::from(returns)] + 1;
        let mut file = member_file(kind, roll[sender], number, &rows);
        if numbers.rarely(4) {
            damage(&mut file, &mut numbers);
        } else {
            last[sender][usize::from(returns)] = number.min(99);
        }
        files.push(file);
    }
    files
}

fn write(folder: &Path, members: usize, files: &[Vec<u8>]) -> io::Result<()> {
    fs::create_dir_all(folder)?;
    let codes: Vec<String> = roll(members).iter().map(u16::to_string).collect();
    fs::write(folder.join("docket"), format!("{DATE} {CYCLE} {CURRENCY} {}\n", codes.join(" ")))?;
    for (at, file) in files.iter().enumerate() {
        fs::write(folder.join(at.to_string()), file)?;
    }
    Ok(())
}

/// Writes a set into the folder: `docket`, and the files `0`, `1`, `2` and so on in the order of sending.
pub fn make(folder: &Path, plan: &Plan) -> io::Result<()> {
    write(folder, plan.members, &plan.files())
}

pub fn make_odd(folder: &Path) -> io::Result<()> {
    write(folder, 8, &odd_files())
}
