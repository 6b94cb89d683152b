//! Makes the input of the measurement, and measures the plain engine on it.
//!
//!     make FOLDER MEMBERS ROWS ROWS-IN-FILE random|one-payer|chain|ring rising|scattered
//!     make-odd FOLDER
//!     check FOLDER
//!     intake FOLDER
//!     clear FOLDER sending|wages ample|scant|none
//!     result FOLDER sending|wages ample|scant|none
//!
//! The last four print one line: the job, the rows held, the best time of one call and a checksum of what came of it.

mod engine;
mod sets;

use engine::{CAPACITY, CreditTransfers, Docket, Fault, Memory, Ranking, SendingOrder, Session, Statement, WagesFirst, check};
use sets::{Payments, Plan, References};
use std::error::Error;
use std::fs;
use std::hint::black_box;
use std::path::Path;
use std::time::{Duration, Instant};

type Outcome<T> = Result<T, Box<dyn Error>>;

/// A job is done so many times at most, and no more once it has taken so long in all.
const TURNS: usize = 1_000;
const ENOUGH: Duration = Duration::from_millis(200);

/// A call that takes microseconds is made so often between two looks at the clock.
const REPEATS: u32 = 10;

const RESULT_MOST_BYTES: usize = 131_070;

/// The best time of one call, of a job that makes it so many times: the turn that was least disturbed.
/// What a turn needs is made before the clock starts, and what it gives is let go after it stopped.
fn best<N, T>(repeats: u32, mut need: impl FnMut() -> N, mut job: impl FnMut(N) -> T) -> u128 {
    let mut best = Duration::MAX;
    let mut spent = Duration::ZERO;
    for _ in 0..TURNS {
        let needed = need();
        let start = Instant::now();
        let made = black_box(job(needed));
        let time = start.elapsed();
        drop(made);
        best = best.min(time);
        spent += time;
        if spent >= ENOUGH {
            break;
        }
    }
    best.as_nanos() * 1_000 / u128::from(repeats)
}

/// A checksum over numbers, made as the other program makes it.
struct Sum(u64);

impl Sum {
    fn new() -> Sum {
        Sum(0xCBF2_9CE4_8422_2325)
    }

    fn add(&mut self, number: u64) {
        self.0 = (self.0 ^ number).wrapping_mul(0x100_0000_01B3);
    }

    fn add_bytes(&mut self, bytes: &[u8]) {
        for byte in bytes {
            self.add(u64::from(*byte));
        }
    }

    /// Takes the files in, and adds each answer with its outcomes.
    fn add_intakes(&mut self, session: &mut Session, files: &[Vec<u8>], out: &mut [u8]) {
        for file in files {
            match session.intake(&CreditTransfers, file, out) {
                Ok(rows) => {
                    self.add(rows.taken as u64);
                    self.add(rows.turned_away as u64);
                    self.add_bytes(&out[..rows.taken + rows.turned_away]);
                }
                Err(fault) => self.add_fault(fault),
            }
        }
    }

    fn add_fault(&mut self, fault: Fault) {
        self.add(fault.cause as u64);
        self.add(u64::from(fault.layer));
        self.add(fault.place as u64);
    }

    /// Judges the files, without a session, and adds the verdicts. The answer is how many rows those have that pass.
    fn add_verdicts(&mut self, files: &[Vec<u8>]) -> usize {
        let mut rows = 0;
        for file in files {
            match check(file) {
                Ok(summary) => {
                    rows += usize::from(summary.rows);
                    self.add(u64::from(summary.rows));
                }
                Err(fault) => self.add_fault(fault),
            }
        }
        rows
    }

    /// The mark of each record, and position and cover of each member.
    fn add_session(&mut self, session: &Session) {
        for at in 0..session.held() {
            self.add(u64::from(session.mark(at)));
        }
        for (position, cover) in session.standing().unwrap_or_default() {
            self.add(position as u64);
            self.add(cover);
        }
    }
}

struct Input {
    docket: Docket,
    files: Vec<Vec<u8>>,
}

impl Input {
    fn read(folder: &Path) -> Outcome<Input> {
        let line = fs::read_to_string(folder.join("docket"))?;
        let mut words = line.split_ascii_whitespace();
        let mut word = || words.next().ok_or("the docket is short");
        let (date, cycle, currency) = (word()?.parse()?, word()?.parse()?, word()?.parse()?);
        let roll = words.map(str::parse).collect::<Result<_, _>>()?;
        let files = (0..).map_while(|at: usize| fs::read(folder.join(at.to_string())).ok()).collect();
        Ok(Input { docket: Docket { date, cycle, currency, roll }, files })
    }

    fn take_in(&self, docket: Docket, memory: Memory, out: &mut [u8]) -> Session {
        let mut session = Session::open(docket, memory);
        for file in &self.files {
            let _ = session.intake(&CreditTransfers, file, out);
        }
        session
    }

    fn session(&self) -> Session {
        self.take_in(self.docket.clone(), Memory::new(), &mut [0; CAPACITY])
    }

    /// Covers for the roll: enough for everything, little and different for each member, or none.
    fn covers(&self, name: &str) -> Outcome<Statement> {
        let mut statement = Statement::new();
        for code in &self.docket.roll {
            let balance = match name {
                "ample" => 1_000_000_000_000,
                "scant" => u64::from(*code) * 100_000,
                "none" => 0,
                _ => return Err("ample, scant or none is wanted".into()),
            };
            statement.report(*code, balance);
        }
        Ok(statement)
    }
}

fn show(job: &str, rows: usize, picoseconds: u128, sum: &Sum) {
    println!("{job} rows={rows} picoseconds={picoseconds} sum={:016x}", sum.0);
}

fn bench_check(input: &Input) {
    let time = best(1, Sum::new, |mut sum| (sum.add_verdicts(&input.files), sum));
    let mut sum = Sum::new();
    let rows = sum.add_verdicts(&input.files);
    show("check", rows, time, &sum);
}

fn bench_intake(input: &Input) {
    let mut out = [0; CAPACITY];
    let need = || (input.docket.clone(), Memory::new());
    let time = best(1, need, |(docket, memory)| input.take_in(docket, memory, &mut out));
    let mut sum = Sum::new();
    let mut session = Session::open(input.docket.clone(), Memory::new());
    sum.add_intakes(&mut session, &input.files, &mut out);
    sum.add_session(&session);
    show("intake", session.held(), time, &sum);
}

fn bench_clear<R: Ranking>(input: &Input, rule: &R, source: &Statement) {
    let mut session = input.session();
    let mut sum = Sum::new();
    sum.add(session.clear(rule, source) as u64);
    let time = best(REPEATS, || (), |()| {
        for _ in 0..REPEATS {
            black_box(session.clear(rule, source));
        }
    });
    sum.add_session(&session);
    show("clear", session.held(), time, &sum);
}

fn bench_result<R: Ranking>(input: &Input, rule: &R, source: &Statement) {
    let mut session = input.session();
    session.clear(rule, source);
    let mut out = vec![0; RESULT_MOST_BYTES];
    let time = best(REPEATS, || (), |()| {
        for _ in 0..REPEATS {
            let _ = black_box(session.write_result(&mut out));
        }
    });
    let mut sum = Sum::new();
    sum.add_bytes(&out);
    show("result", session.held(), time, &sum);
}

fn make(folder: &Path, words: &[&str]) -> Outcome<()> {
    let [members, rows, rows_in_file, payments, references] = words else {
        return Err("make: six words are wanted".into());
    };
    let payments = match *payments {
        "random" => Payments::Random,
        "one-payer" => Payments::OnePayer,
        "chain" => Payments::Chain,
        "ring" => Payments::Ring,
        _ => return Err("make: no such payments".into()),
    };
    let references = match *references {
        "rising" => References::Rising,
        "scattered" => References::Scattered,
        _ => return Err("make: no such references".into()),
    };
    let plan = Plan {
        members: members.parse()?,
        rows: rows.parse()?,
        rows_in_file: rows_in_file.parse()?,
        payments,
        references,
    };
    Ok(sets::make(folder, &plan)?)
}

fn main() -> Outcome<()> {
    let words: Vec<String> = std::env::args().skip(1).collect();
    let words: Vec<&str> = words.iter().map(String::as_str).collect();
    let [job, folder, rest @ ..] = words.as_slice() else {
        return Err("a job and a folder are wanted".into());
    };
    let folder = Path::new(folder);
    match (*job, rest) {
        ("make", rest) => make(folder, rest)?,
        ("make-odd", []) => sets::make_odd(folder)?,
        ("check", []) => bench_check(&Input::read(folder)?),
        ("intake", []) => bench_intake(&Input::read(folder)?),
        ("clear", [rule, cover]) => {
            let input = Input::read(folder)?;
            let source = input.covers(cover)?;
            match *rule {
                "sending" => bench_clear(&input, &SendingOrder, &source),
                "wages" => bench_clear(&input, &WagesFirst, &source),
                _ => return Err("clear: no such rule".into()),
            }
        }
        ("result", [rule, cover]) => {
            let input = Input::read(folder)?;
            let source = input.covers(cover)?;
            match *rule {
                "sending" => bench_result(&input, &SendingOrder, &source),
                "wages" => bench_result(&input, &WagesFirst, &source),
                _ => return Err("result: no such rule".into()),
            }
        }
        _ => return Err("no such job".into()),
    }
    Ok(())
}
