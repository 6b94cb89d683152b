//! An engine for the same rules in plain Rust, with nothing proved: what the proved engine is measured against.
//!
//! It is written to be fast. A file is walked twice, once to judge it and once to take its rows in; references are found
//! through a hash index, members through a table by code; a clearing sorts a payer's records only once that payer is short.

pub const CAPACITY: usize = 4_096;
pub const MEMBERS: usize = 64;
const FILE_MOST_BYTES: usize = 65_535;

/// Why something is refused; its number is the code of the rules.
#[derive(Clone, Copy, Debug, PartialEq, Eq)]
#[repr(u8)]
pub enum Refusal {
    FileTooLong = 10,
    Cut = 11,
    UnknownTag = 12,
    WrongLength = 13,
    OutOfOrder = 20,
    WrongKind = 21,
    BatchNumber = 22,
    TotalDiffers = 23,
    HeaderValue = 24,
    NotThisSession = 30,
    OriginOffRoll = 31,
    FileNumber = 32,
    ReturnsNotTaken = 33,
    CapacityExceeded = 34,
    OutcomesShort = 35,
    OtherMember = 40,
    RecordType = 41,
    NotAdmitted = 42,
    ReferenceUsed = 43,
    NoSuchRecord = 44,
    AlreadyReturned = 45,
    ReturnDiffers = 46,
    ReturnCause = 47,
    NotCleared = 52,
    BufferShort = 54,
}

use Refusal::*;

/// Why a whole file is refused: the cause, the layer that found it and the place of the record.
#[derive(Clone, Copy, Debug)]
pub struct Fault {
    pub cause: Refusal,
    pub layer: u8,
    pub place: usize,
}

const FIELDS: u8 = 1;
const FILE: u8 = 2;
const SESSION: u8 = 3;

#[derive(Clone, Copy, PartialEq, Eq)]
pub enum Kind {
    Presentations,
    Returns,
}

#[derive(Clone, Copy)]
pub struct Header {
    kind: Kind,
    currency: u8,
    cycle: u8,
    origin: u16,
    date: u32,
    number: u8,
}

#[derive(Clone, Copy)]
pub struct Summary {
    header: Header,
    pub rows: u16,
}

#[derive(Clone, Copy, Default, PartialEq, Eq)]
struct Totals {
    count: u16,
    amounts: u64,
    commissions: u64,
    parties: u32,
}

impl Totals {
    fn add(&mut self, other: Totals) {
        self.count += other.count;
        self.amounts += other.amounts;
        self.commissions += other.commissions;
        self.parties += other.parties;
    }

    fn in_closing(value: &[u8]) -> Totals {
        Totals {
            count: u16_at(value, 2),
            amounts: u64_at(value, 4),
            commissions: u64_at(value, 12),
            parties: u32_at(value, 20),
        }
    }
}

fn u16_at(bytes: &[u8], at: usize) -> u16 {
    u16::from_be_bytes(bytes[at..at + 2].try_into().unwrap())
}

fn u32_at(bytes: &[u8], at: usize) -> u32 {
    u32::from_be_bytes(bytes[at..at + 4].try_into().unwrap())
}

fn u64_at(bytes: &[u8], at: usize) -> u64 {
    u64::from_be_bytes(bytes[at..at + 8].try_into().unwrap())
}

// The tags of the records, and how long the records are with their heads.
const FILE_HEADER: u8 = 1;
const BATCH_HEADER: u8 = 5;
const PRESENTATION: u8 = 6;
const RETURN: u8 = 7;
const BATCH_END: u8 = 8;
const FILE_END: u8 = 9;
const HEAD_BYTES: usize = 3;
const FILE_HEADER_BYTES: usize = 13;
const BATCH_HEADER_BYTES: usize = 6;
const ROW_BYTES: usize = 16;
const END_BYTES: usize = 27;

/// How many bytes the value of a record with that tag has.
fn width(tag: u8) -> Option<usize> {
    match tag {
        FILE_HEADER => Some(10),
        BATCH_HEADER => Some(3),
        PRESENTATION | RETURN => Some(13),
        BATCH_END | FILE_END => Some(24),
        _ => None,
    }
}

/// Whether eight digits are a real day of the years 2000 to 2099.
fn is_day(date: u32) -> bool {
    let (year, month, day) = (date / 10_000, date / 100 % 100, date % 100);
    let last = match month {
        4 | 6 | 9 | 11 => 30,
        // 2000 is a leap year by the Gregorian calendar too, so every fourth year of these is one.
        2 if year % 4 == 0 => 29,
        2 => 28,
        1..=12 => 31,
        _ => return false,
    };
    (2000..=2099).contains(&year) && (1..=last).contains(&day)
}

impl Header {
    fn read(value: &[u8]) -> Option<Header> {
        let header = Header {
            kind: match value[0] {
                1 => Kind::Presentations,
                2 => Kind::Returns,
                _ => return None,
            },
            currency: value[1],
            cycle: value[2],
            origin: u16_at(value, 3),
            date: u32_at(value, 5),
            number: value[9],
        };
        let ranged = (1..=2).contains(&header.currency)
            && (1..=3).contains(&header.cycle)
            && (1..=999).contains(&header.origin)
            && (1..=99).contains(&header.number)
            && is_day(header.date);
        ranged.then_some(header)
    }

    fn batch_kind(&self) -> u8 {
        match self.kind {
            Kind::Presentations => 32,
            Kind::Returns => 31,
        }
    }

    fn row_tag(&self) -> u8 {
        match self.kind {
            Kind::Presentations => PRESENTATION,
            Kind::Returns => RETURN,
        }
    }
}

/// A walk over the records of a file that is not known to be good.
struct Walk<'a> {
    bytes: &'a [u8],
    at: usize,
}

impl<'a> Walk<'a> {
    /// The tag and the value of the record here, by the rules of the bytes alone.
    fn record(&self) -> Result<(u8, &'a [u8]), Fault> {
        let fault = |cause| Fault { cause, layer: FIELDS, place: self.at };
        let rest = &self.bytes[self.at..];
        let Some((head, rest)) = rest.split_first_chunk::<HEAD_BYTES>() else {
            return Err(fault(Cut));
        };
        let width = width(head[0]).ok_or(fault(UnknownTag))?;
        if usize::from(u16_at(head, 1)) != width {
            return Err(fault(WrongLength));
        }
        let value = rest.get(..width).ok_or(fault(Cut))?;
        Ok((head[0], value))
    }

    fn fault(&self, cause: Refusal) -> Fault {
        Fault { cause, layer: FILE, place: self.at }
    }

    fn header(&mut self) -> Result<Header, Fault> {
        let (tag, value) = self.record()?;
        if tag != FILE_HEADER {
            return Err(self.fault(OutOfOrder));
        }
        let header = Header::read(value).ok_or(self.fault(HeaderValue))?;
        self.at += FILE_HEADER_BYTES;
        Ok(header)
    }

    /// Goes over the rows here that are as they must be. What stops it is for the slower check to name.
    fn rows(&mut self, header: &Header) -> Totals {
        let head = [header.row_tag(), 0, 13];
        // The party stands first in the value of a return, behind the type in that of a presentation.
        let shift = match header.kind {
            Kind::Presentations => 4,
            Kind::Returns => 3,
        };
        let mut totals = Totals::default();
        for row in self.bytes[self.at..].chunks_exact(ROW_BYTES) {
            if row[..HEAD_BYTES] != head {
                break;
            }
            totals.count += 1;
            totals.parties += u32::from(u16_at(row, shift));
            totals.amounts += u64::from(u32_at(row, shift + 6));
            totals.commissions += u64::from(u16_at(row, shift + 10));
        }
        self.at += usize::from(totals.count) * ROW_BYTES;
        totals
    }

    /// One batch, from its header to its end: its number and its totals.
    fn batch(&mut self, header: &Header, value: &[u8], last: u16) -> Result<(u16, Totals), Fault> {
        if value[0] != header.batch_kind() {
            return Err(self.fault(WrongKind));
        }
        let number = u16_at(value, 1);
        if number <= last {
            return Err(self.fault(BatchNumber));
        }
        self.at += BATCH_HEADER_BYTES;
        let totals = self.rows(header);
        let (tag, value) = self.record()?;
        match tag {
            BATCH_END => {}
            PRESENTATION | RETURN => return Err(self.fault(WrongKind)),
            _ => return Err(self.fault(OutOfOrder)),
        }
        if u16_at(value, 0) != number {
            return Err(self.fault(BatchNumber));
        }
        if Totals::in_closing(value) != totals {
            return Err(self.fault(TotalDiffers));
        }
        self.at += END_BYTES;
        Ok((number, totals))
    }
}

/// What a member file is, or its first fault.
pub fn check(bytes: &[u8]) -> Result<Summary, Fault> {
    if bytes.len() > FILE_MOST_BYTES {
        return Err(Fault { cause: FileTooLong, layer: FIELDS, place: 0 });
    }
    let mut walk = Walk { bytes, at: 0 };
    let header = walk.header()?;
    let mut batches = 0u16;
    let mut last = 0;
    let mut totals = Totals::default();
    loop {
        let (tag, value) = walk.record()?;
        match tag {
            BATCH_HEADER => {
                let (number, of_batch) = walk.batch(&header, value, last)?;
                last = number;
                batches += 1;
                totals.add(of_batch);
            }
            FILE_END => {
                if u16_at(value, 0) != batches || Totals::in_closing(value) != totals {
                    return Err(walk.fault(TotalDiffers));
                }
                walk.at += END_BYTES;
                if walk.at < bytes.len() {
                    return Err(walk.fault(OutOfOrder));
                }
                return Ok(Summary { header, rows: totals.count });
            }
            _ => return Err(walk.fault(OutOfOrder)),
        }
    }
}

/// The rows of a file that has passed the check, each with its head.
struct Rows<'a> {
    bytes: &'a [u8],
    at: usize,
    tag: u8,
}

impl<'a> Rows<'a> {
    fn new(bytes: &'a [u8], header: &Header) -> Rows<'a> {
        Rows { bytes, at: FILE_HEADER_BYTES, tag: header.row_tag() }
    }
}

impl<'a> Iterator for Rows<'a> {
    type Item = &'a [u8; ROW_BYTES];

    fn next(&mut self) -> Option<Self::Item> {
        loop {
            match self.bytes[self.at] {
                tag if tag == self.tag => {
                    let row = self.bytes[self.at..].first_chunk();
                    self.at += ROW_BYTES;
                    return row;
                }
                BATCH_HEADER => self.at += BATCH_HEADER_BYTES,
                BATCH_END => self.at += END_BYTES,
                _ => return None,
            }
        }
    }
}

/// What a call may be given: which records an instrument admits and what they are worth.
pub trait Instrument {
    /// The worth of an admitted record, or 41 or 42.
    fn admit(&self, record_type: u8, currency: u8, amount: u32, commission: u16) -> Result<u32, Refusal>;
    fn origin_pays(&self) -> bool;
    fn takes_returns(&self) -> bool;
}

const COMMISSION_LIMIT: u16 = 10_000;

pub struct CreditTransfers;

impl Instrument for CreditTransfers {
    fn admit(&self, record_type: u8, currency: u8, amount: u32, commission: u16) -> Result<u32, Refusal> {
        if !(220..=225).contains(&record_type) {
            return Err(RecordType);
        }
        let limit = if currency == 1 { 30_000_000 } else { 10_000_000 };
        let validation = amount == 0 && commission == 0 && record_type <= 223;
        if validation || (1..=limit).contains(&amount) && commission <= COMMISSION_LIMIT {
            Ok(amount + u32::from(commission))
        } else {
            Err(NotAdmitted)
        }
    }

    fn origin_pays(&self) -> bool {
        true
    }

    fn takes_returns(&self) -> bool {
        true
    }
}

/// What a ranking rule may look at of a record.
#[derive(Clone, Copy)]
#[allow(dead_code, reason = "a rule may look at the worth, though neither of these does")]
pub struct Key {
    pub record_type: u8,
    pub worth: u32,
    pub number: usize,
}

pub trait Ranking {
    /// Whether the first stands before the second; what stands late is withdrawn first.
    fn before(&self, a: Key, b: Key) -> bool;
}

pub struct SendingOrder;

impl Ranking for SendingOrder {
    fn before(&self, a: Key, b: Key) -> bool {
        a.number < b.number
    }
}

pub struct WagesFirst;

impl WagesFirst {
    fn is_wages(record_type: u8) -> bool {
        record_type == 221 || record_type == 223
    }
}

impl Ranking for WagesFirst {
    fn before(&self, a: Key, b: Key) -> bool {
        let first = Self::is_wages(a.record_type);
        if first == Self::is_wages(b.record_type) {
            a.number < b.number
        } else {
            first
        }
    }
}

pub trait CoverSource {
    fn cover(&self, code: u16) -> u64;
}

/// The balance last reported for each code, 0 where none was.
pub struct Statement {
    balances: Vec<u64>,
}

impl Statement {
    pub fn new() -> Statement {
        Statement { balances: vec![0; 1_000] }
    }

    pub fn report(&mut self, code: u16, balance: u64) {
        self.balances[usize::from(code)] = balance;
    }
}

impl CoverSource for Statement {
    fn cover(&self, code: u16) -> u64 {
        self.balances[usize::from(code)]
    }
}

/// Which session is meant: date, cycle, currency and the codes of its members.
#[derive(Clone)]
pub struct Docket {
    pub date: u32,
    pub cycle: u8,
    pub currency: u8,
    pub roll: Vec<u16>,
}

const OFF_ROLL: u8 = u8::MAX;

/// The place of each code on the roll, by code, so that one look finds it.
struct Places([u8; 1_000]);

impl Places {
    fn new(roll: &[u16]) -> Places {
        let mut places = [OFF_ROLL; 1_000];
        for (place, code) in roll.iter().enumerate() {
            places[usize::from(*code)] = place as u8;
        }
        Places(places)
    }

    fn of(&self, code: u16) -> Option<u8> {
        self.0.get(usize::from(code)).copied().filter(|place| *place != OFF_ROLL)
    }
}

#[derive(Clone, Copy)]
pub struct Entry {
    reference: u32,
    amount: u32,
    worth: u32,
    origin: u16,
    other: u16,
    commission: u16,
    record_type: u8,
    payer: u8,
    receiver: u8,
    returnable: bool,
    returned: bool,
    kept: bool,
}

/// Where each record stands, by origin and reference: the standard library's hash map, made large enough at the start.
#[cfg(not(tuned))]
struct Index {
    places: std::collections::HashMap<(u16, u32), u16>,
}

#[cfg(not(tuned))]
impl Index {
    fn new() -> Index {
        Index { places: std::collections::HashMap::with_capacity(CAPACITY) }
    }

    /// The place of the record, if there is one.
    fn find(&self, _: &[Entry], origin: u16, reference: u32) -> Option<usize> {
        self.places.get(&(origin, reference)).map(|place| usize::from(*place))
    }

    fn enter(&mut self, entries: &[Entry], place: usize) {
        let entry = &entries[place];
        self.places.insert((entry.origin, entry.reference), place as u16);
    }
}

/// Twice as many slots as a session has records, so that a search ends soon.
#[cfg(tuned)]
const SLOTS: usize = 2 * CAPACITY;

/// The same by hand: an open hash table of record numbers, 0 where a slot is free, under a hash that a sender could work against.
#[cfg(tuned)]
struct Index {
    slots: Box<[u16; SLOTS]>,
}

#[cfg(tuned)]
impl Index {
    fn new() -> Index {
        Index { slots: Box::new([0; SLOTS]) }
    }

    /// The slot of the record, or the free one where it would stand.
    fn slot_of(&self, entries: &[Entry], origin: u16, reference: u32) -> usize {
        let key = u64::from(reference) << 16 | u64::from(origin);
        let mut slot = (key.wrapping_mul(0x9E37_79B9_7F4A_7C15) >> 51) as usize;
        loop {
            let number = usize::from(self.slots[slot]);
            if number == 0 {
                return slot;
            }
            let entry = &entries[number - 1];
            if entry.reference == reference && entry.origin == origin {
                return slot;
            }
            slot = (slot + 1) % SLOTS;
        }
    }

    fn find(&self, entries: &[Entry], origin: u16, reference: u32) -> Option<usize> {
        usize::from(self.slots[self.slot_of(entries, origin, reference)]).checked_sub(1)
    }

    fn enter(&mut self, entries: &[Entry], place: usize) {
        let entry = &entries[place];
        let slot = self.slot_of(&entries[..place], entry.origin, entry.reference);
        self.slots[slot] = place as u16 + 1;
    }
}

/// The member that sends a file.
#[derive(Clone, Copy)]
struct Sender {
    code: u16,
    place: u8,
}

#[derive(Clone, Copy, Debug)]
pub struct Taken {
    pub taken: usize,
    pub turned_away: usize,
}

/// How the last clearing left the session.
struct Cleared {
    covers: [u64; MEMBERS],
    withdrawn: usize,
}

/// The memory of a session, made before it is opened.
pub struct Memory {
    entries: Vec<Entry>,
    index: Index,
}

impl Memory {
    pub fn new() -> Memory {
        Memory { entries: Vec::with_capacity(CAPACITY), index: Index::new() }
    }
}

pub struct Session {
    docket: Docket,
    places: Places,
    entries: Vec<Entry>,
    index: Index,
    presentations: [u8; MEMBERS],
    returns: [u8; MEMBERS],
    cleared: Option<Cleared>,
}

impl Session {
    pub fn open(docket: Docket, memory: Memory) -> Session {
        Session {
            places: Places::new(&docket.roll),
            docket,
            entries: memory.entries,
            index: memory.index,
            presentations: [0; MEMBERS],
            returns: [0; MEMBERS],
            cleared: None,
        }
    }

    fn numbers(&mut self, kind: Kind) -> &mut [u8; MEMBERS] {
        match kind {
            Kind::Presentations => &mut self.presentations,
            Kind::Returns => &mut self.returns,
        }
    }

    /// The sender of a file that may be taken in, or why it may not.
    fn admit<I: Instrument>(&mut self, instrument: &I, file: &Summary, room: usize) -> Result<Sender, Refusal> {
        let header = &file.header;
        if header.date != self.docket.date || header.cycle != self.docket.cycle || header.currency != self.docket.currency {
            return Err(NotThisSession);
        }
        let place = self.places.of(header.origin).ok_or(OriginOffRoll)?;
        if header.number != self.numbers(header.kind)[usize::from(place)] + 1 {
            return Err(FileNumber);
        }
        let rows = usize::from(file.rows);
        match header.kind {
            Kind::Returns if !instrument.takes_returns() => return Err(ReturnsNotTaken),
            Kind::Presentations if self.entries.len() + rows > CAPACITY => return Err(CapacityExceeded),
            _ => {}
        }
        if room < rows {
            return Err(OutcomesShort);
        }
        Ok(Sender { code: header.origin, place })
    }

    fn present<I: Instrument>(&mut self, instrument: &I, sender: Sender, row: &[u8; ROW_BYTES]) -> Result<(), Refusal> {
        let record_type = row[3];
        let other = u16_at(row, 4);
        let reference = u32_at(row, 6);
        let amount = u32_at(row, 10);
        let commission = u16_at(row, 14);
        let place = self.places.of(other).ok_or(OtherMember)?;
        if other == sender.code {
            return Err(OtherMember);
        }
        let worth = instrument.admit(record_type, self.docket.currency, amount, commission)?;
        if reference == 0 {
            return Err(ReferenceUsed);
        }
        if self.index.find(&self.entries, sender.code, reference).is_some() {
            return Err(ReferenceUsed);
        }
        let (payer, receiver) = if instrument.origin_pays() { (sender.place, place) } else { (place, sender.place) };
        self.entries.push(Entry {
            reference,
            amount,
            worth,
            origin: sender.code,
            other,
            commission,
            record_type,
            payer,
            receiver,
            returnable: instrument.takes_returns(),
            returned: false,
            kept: false,
        });
        self.index.enter(&self.entries, self.entries.len() - 1);
        Ok(())
    }

    fn take_back(&mut self, sender: Sender, row: &[u8; ROW_BYTES]) -> Result<(), Refusal> {
        let found = self.index.find(&self.entries, u16_at(row, 3), u32_at(row, 5));
        let entry = &mut self.entries[found.ok_or(NoSuchRecord)?];
        if entry.other != sender.code || !entry.returnable {
            return Err(NoSuchRecord);
        }
        if entry.returned {
            return Err(AlreadyReturned);
        }
        if entry.amount != u32_at(row, 9) || entry.commission != u16_at(row, 13) {
            return Err(ReturnDiffers);
        }
        if !(1..=20).contains(&row[15]) || row[15] == 12 {
            return Err(ReturnCause);
        }
        entry.returned = true;
        Ok(())
    }

    /// Takes a file in, or refuses it; an accepted file leaves one outcome byte for each row.
    pub fn intake<I: Instrument>(&mut self, instrument: &I, bytes: &[u8], out: &mut [u8]) -> Result<Taken, Fault> {
        let file = check(bytes)?;
        let header = file.header;
        let sender = self
            .admit(instrument, &file, out.len())
            .map_err(|cause| Fault { cause, layer: SESSION, place: 0 })?;
        let mut taken = 0;
        for (row, outcome) in Rows::new(bytes, &header).zip(out.iter_mut()) {
            let judged = match header.kind {
                Kind::Presentations => self.present(instrument, sender, row),
                Kind::Returns => self.take_back(sender, row),
            };
            *outcome = match judged {
                Ok(()) => {
                    taken += 1;
                    0
                }
                Err(cause) => cause as u8,
            };
        }
        self.numbers(header.kind)[usize::from(sender.place)] = header.number;
        self.cleared = None;
        Ok(Taken { taken, turned_away: usize::from(file.rows) - taken })
    }

    /// Keeps the greatest lawful covered choice, and answers how many records it withdrew.
    pub fn clear<R: Ranking, C: CoverSource>(&mut self, rule: &R, source: &C) -> usize {
        let mut covers = [0; MEMBERS];
        for (cover, code) in covers.iter_mut().zip(&self.docket.roll) {
            *cover = source.cover(*code);
        }
        let mut balances = Balances::keep_live(&covers, &mut self.entries);
        let withdrawn = if balances.is_any_short() { withdraw(rule, &mut balances, &mut self.entries) } else { 0 };
        self.cleared = Some(Cleared { covers, withdrawn });
        withdrawn
    }

    /// What each member has received minus what it has paid, over kept records.
    fn positions(&self) -> [i64; MEMBERS] {
        let mut positions = [0; MEMBERS];
        for entry in &self.entries {
            if entry.kept {
                positions[usize::from(entry.payer)] -= i64::from(entry.worth);
                positions[usize::from(entry.receiver)] += i64::from(entry.worth);
            }
        }
        positions
    }

    pub fn held(&self) -> usize {
        self.entries.len()
    }

    /// The mark of the record at a place, from 0.
    pub fn mark(&self, at: usize) -> u8 {
        let entry = &self.entries[at];
        match self.cleared {
            None => 0,
            Some(_) if entry.returned => 3,
            Some(_) if entry.kept => 1,
            Some(_) => 2,
        }
    }

    /// Position and cover of each member of the roll, while the session stands cleared.
    pub fn standing(&self) -> Option<Vec<(i64, u64)>> {
        let cleared = self.cleared.as_ref()?;
        let lines = self.positions().into_iter().zip(cleared.covers);
        Some(lines.take(self.docket.roll.len()).collect())
    }

    /// Writes the result file at the front of the buffer, and gives its length.
    pub fn write_result(&self, out: &mut [u8]) -> Result<usize, Refusal> {
        let cleared = self.cleared.as_ref().ok_or(NotCleared)?;
        let members = self.docket.roll.len();
        let length = 9 + members * 21 + cleared.withdrawn * 18 + 15;
        let out = out.get_mut(..length).ok_or(BufferShort)?;
        let (header, out) = out.split_at_mut(9);
        let (lines, out) = out.split_at_mut(members * 21);
        let (withdrawn, totals) = out.split_at_mut(cleared.withdrawn * 18);
        header[..5].copy_from_slice(&[4, 0, 6, self.docket.currency, self.docket.cycle]);
        header[5..].copy_from_slice(&self.docket.date.to_be_bytes());
        let positions = self.positions();
        for (place, line) in lines.chunks_exact_mut(21).enumerate() {
            line[..3].copy_from_slice(&[2, 0, 18]);
            line[3..5].copy_from_slice(&self.docket.roll[place].to_be_bytes());
            line[5..13].copy_from_slice(&positions[place].to_be_bytes());
            line[13..].copy_from_slice(&cleared.covers[place].to_be_bytes());
        }
        self.write_withdrawn(withdrawn);
        totals[..3].copy_from_slice(&[10, 0, 12]);
        totals[3..5].copy_from_slice(&(members as u16).to_be_bytes());
        totals[5..7].copy_from_slice(&(cleared.withdrawn as u16).to_be_bytes());
        let sum: i64 = positions.iter().filter(|position| **position > 0).sum();
        totals[7..].copy_from_slice(&sum.to_be_bytes());
        Ok(length)
    }

    fn write_withdrawn(&self, out: &mut [u8]) {
        let withdrawn = self.entries.iter().filter(|entry| !entry.kept && !entry.returned);
        for (entry, record) in withdrawn.zip(out.chunks_exact_mut(18)) {
            record[..3].copy_from_slice(&[3, 0, 15]);
            record[3..5].copy_from_slice(&entry.origin.to_be_bytes());
            record[5..7].copy_from_slice(&entry.other.to_be_bytes());
            record[7..11].copy_from_slice(&entry.reference.to_be_bytes());
            record[11..15].copy_from_slice(&entry.amount.to_be_bytes());
            record[15..17].copy_from_slice(&entry.commission.to_be_bytes());
            record[17] = 12;
        }
    }
}

/// What each member is to pay of the kept records, and what it has to pay it from: its cover and its kept receipts.
struct Balances {
    due: [u64; MEMBERS],
    funds: [u64; MEMBERS],
}

impl Balances {
    fn keep_live(covers: &[u64; MEMBERS], entries: &mut [Entry]) -> Balances {
        let mut due = [0; MEMBERS];
        let mut funds = *covers;
        for entry in entries {
            entry.kept = !entry.returned;
            if entry.kept {
                due[usize::from(entry.payer)] += u64::from(entry.worth);
                funds[usize::from(entry.receiver)] += u64::from(entry.worth);
            }
        }
        Balances { due, funds }
    }

    fn is_short(&self, member: usize) -> bool {
        self.funds[member] < self.due[member]
    }

    fn is_any_short(&self) -> bool {
        (0..MEMBERS).any(|member| self.is_short(member))
    }
}

/// The kept records of each payer, and which payers' are sorted by rank.
struct Lanes {
    /// Places in the table, payer by payer; those of one payer by rising session number until they are sorted.
    order: Vec<u16>,
    start: [usize; MEMBERS + 1],
    /// Behind the last record of each payer that is still kept.
    end: [usize; MEMBERS],
    sorted: [bool; MEMBERS],
}

impl Lanes {
    fn new(entries: &[Entry]) -> Lanes {
        let mut start = [0; MEMBERS + 1];
        for entry in entries.iter().filter(|entry| entry.kept) {
            start[usize::from(entry.payer) + 1] += 1;
        }
        for member in 0..MEMBERS {
            start[member + 1] += start[member];
        }
        let mut end = [0; MEMBERS];
        end.copy_from_slice(&start[..MEMBERS]);
        let mut order = vec![0; start[MEMBERS]];
        for (at, entry) in entries.iter().enumerate().filter(|(_, entry)| entry.kept) {
            let next = &mut end[usize::from(entry.payer)];
            order[*next] = at as u16;
            *next += 1;
        }
        Lanes { order, start, end, sorted: [false; MEMBERS] }
    }

    fn sort<R: Ranking>(&mut self, rule: &R, entries: &[Entry], member: usize) {
        if self.sorted[member] {
            return;
        }
        self.sorted[member] = true;
        let key = |at: u16| {
            let entry = &entries[usize::from(at)];
            Key { record_type: entry.record_type, worth: entry.worth, number: usize::from(at) + 1 }
        };
        let lane = &mut self.order[self.start[member]..self.end[member]];
        lane.sort_by(|a, b| if rule.before(key(*a), key(*b)) { std::cmp::Ordering::Less } else { std::cmp::Ordering::Greater });
    }
}

/// Withdraws from the end of each short member's records until nobody is short. Whom a withdrawal makes short is put on the list.
fn withdraw<R: Ranking>(rule: &R, balances: &mut Balances, entries: &mut [Entry]) -> usize {
    let mut lanes = Lanes::new(entries);
    let mut short: Vec<usize> = (0..MEMBERS).filter(|member| balances.is_short(*member)).collect();
    let mut count = 0;
    while let Some(member) = short.pop() {
        lanes.sort(rule, entries, member);
        while balances.is_short(member) {
            lanes.end[member] -= 1;
            let entry = &mut entries[usize::from(lanes.order[lanes.end[member]])];
            entry.kept = false;
            count += 1;
            let receiver = usize::from(entry.receiver);
            let was_short = balances.is_short(receiver);
            balances.due[member] -= u64::from(entry.worth);
            balances.funds[receiver] -= u64::from(entry.worth);
            // Whoever was short before is on the list already.
            if !was_short && balances.is_short(receiver) {
                short.push(receiver);
            }
        }
    }
    count
}
