// The office over ordered maps in plain Rust, over a journal's file as the program keeps one.
//
// usage: plain_year generate SEED STUDENTS BOOK JOURNAL    files a generated year as `generate` does, the same bytes with one sync a
//                                                          filing, and prints what it comes to; BOOK has the book's payload
//        plain_year awards YEAR JOURNAL                    opens a journal, judging what it has, and prints `report awards YEAR`
//        plain_year open JOURNAL                           opens a journal, judging what it has, and prints how many filings it has

mod plain;

use plain::desk::PlainDesk;
use plain::filings::{Filing, Verdict};
use plain::office::{Office, Place};
use plain::orders::{Desk, file_year};
use plain::spelling;
use std::fs::{self, File, OpenOptions};
use std::io::{self, BufWriter, Write};
use std::os::unix::fs::FileExt;

const PROGRAMS: [&str; 6] = ["unsub", "sub", "plus", "pell", "fseog", "teach"];

// The bytes of the stamp of nobody, which stands in front of each filing: the day 1970-01-01, and a name without letters.
const STAMP: usize = 5;

// A desk whose admitted filings are appended to a journal: one sync keeps a record's gate and the next record.
struct KeptDesk {
    desk: PlainDesk,
    file: File,
    gate: u64,
    // The gate of the last record, which isn't opened yet.
    closed: Option<u64>,
    book: Vec<u8>,
    record: Vec<u8>,
    failed: io::Result<()>,
}

impl KeptDesk {
    fn append(&mut self) -> io::Result<()> {
        let size = self.record.len() as u32 - 4;
        self.record[..4].copy_from_slice(&size.to_le_bytes());
        self.record.push(0);
        self.open()?;
        self.file.write_all_at(&self.record, self.gate + 1)?;
        self.file.sync_data()?;
        self.closed = Some(self.gate);
        self.gate += self.record.len() as u64;
        Ok(())
    }

    fn open(&mut self) -> io::Result<()> {
        match self.closed.take() {
            Some(gate) => self.file.write_all_at(&[1], gate),
            None => Ok(()),
        }
    }

    fn finish(&mut self) -> io::Result<()> {
        self.open()?;
        self.file.sync_data()
    }
}

impl Desk for KeptDesk {
    fn file(&mut self, filing: Filing) {
        self.record.clear();
        self.record.extend_from_slice(&[0; 4 + STAMP]);
        spelling::put(&filing, &self.book, &mut self.record);
        let accepted = self.desk.accepted;
        self.desk.file(filing);
        if self.desk.accepted > accepted && self.failed.is_ok() {
            self.failed = self.append();
        }
    }

    fn quote(&mut self, place: &Place) -> u64 {
        self.desk.quote(place)
    }

    fn filings(&self) -> u32 {
        self.desk.filings()
    }
}

fn generate(seed: u64, students: u32, book: &str, journal: &str) -> io::Result<()> {
    let file = OpenOptions::new().read(true).write(true).open(journal)?;
    let desk = PlainDesk::default();
    let book = fs::read(book)?;
    let mut kept = KeptDesk { desk, file, gate: 16, closed: None, book, record: Vec::new(), failed: Ok(()) };
    file_year(&mut kept, seed, students);
    kept.finish()?;
    kept.failed?;
    print!("{}", kept.desk);
    Ok(())
}

fn not_a_journal() -> io::Error {
    io::Error::other("not a journal of these kinds")
}

// The office of a journal's bytes, each of its filings, which have no other stamp, judged on those before it.
fn opened(bytes: &[u8]) -> Option<Office> {
    let mut office = Office::default();
    let mut gate = 16;
    while *bytes.get(gate)? == 1 {
        let size = u32::from_le_bytes(bytes.get(gate + 1..gate + 5)?.try_into().ok()?) as usize;
        let filing = spelling::take(bytes.get(gate + 5 + STAMP..gate + 5 + size)?)?;
        match office.judge(&filing) {
            Verdict::Admit(outcome) => office.admit(filing, outcome),
            _ => return None,
        }
        gate += 5 + size;
    }
    Some(office)
}

fn open(journal: &str) -> io::Result<()> {
    let office = opened(&fs::read(journal)?).ok_or_else(not_a_journal)?;
    println!("filings {}", office.len());
    Ok(())
}

fn awards(year: u16, journal: &str) -> io::Result<()> {
    let office = opened(&fs::read(journal)?).ok_or_else(not_a_journal)?;
    let mut out = BufWriter::new(io::stdout());
    let mut lines = 0;
    for (place, net) in office.nets_of(year) {
        for (program, &cents) in net.iter().enumerate().filter(|(_, cents)| **cents > 0) {
            let money = format!("{}.{:02}", cents / 100, cents % 100);
            writeln!(out, "{:>6} {:>12} {} {:<5} {money:>12}", place.school, place.student, place.term, PROGRAMS[program])?;
            lines += 1;
        }
    }
    writeln!(out, "rows {lines}")?;
    out.flush()
}

fn number<T: std::str::FromStr>(word: &str) -> io::Result<T> {
    word.parse().map_err(|_| io::Error::other("a number is wanted"))
}

fn main() -> io::Result<()> {
    let words: Vec<String> = std::env::args().skip(1).collect();
    match words.iter().map(String::as_str).collect::<Vec<_>>()[..] {
        ["generate", seed, students, book, journal] => generate(number(seed)?, number(students)?, book, journal),
        ["awards", year, journal] => awards(number(year)?, journal),
        ["open", journal] => open(journal),
        _ => Err(io::Error::other("usage: plain_year generate SEED STUDENTS BOOK JOURNAL, awards YEAR JOURNAL, or open JOURNAL")),
    }
}
