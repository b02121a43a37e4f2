//! Reads rows from standard input as a plain Rust program would, without rules and without proofs. `check` prints for each
//! row whether its fields are numbers, days, amounts and words in its kind's order; `append FILE` besides appends the
//! numbers of each row to a file, as a journal does: one sync keeps a record's gate and the next record.
use std::fs::File;
use std::io::{self, BufWriter, Read, Write};
use std::os::unix::fs::FileExt;
use std::{env, process};

/// The form of a field.
#[derive(Clone, Copy)]
enum Form {
    Whole,
    Day,
    Cents,
    Program,
}

use Form::{Cents, Day, Program, Whole};

const PROGRAMS: [&str; 6] = ["unsub", "sub", "plus", "pell", "fseog", "teach"];

/// The forms of a kind's fields behind its name.
fn forms_of(kind: &str) -> Option<Vec<Form>> {
    let mut forms = vec![Whole; 2];
    forms.extend_from_slice(match kind {
        "school" => &[Whole; 3],
        "calendar" => &[Whole, Whole, Whole, Day, Day, Whole],
        "prior" => &[Whole; 2],
        "apply" => &[Whole; 52],
        "enrol" => &[Whole; 4],
        "originate" => &[Whole; 3],
        "pay" | "repay" | "adjust" => &[Whole, Whole, Whole, Program, Cents],
        "withdraw" => &[Whole, Whole, Whole, Day, Day, Cents, Cents, Cents, Cents, Cents, Cents, Cents],
        _ => return None,
    });
    Some(forms)
}

/// The days since 1970-01-01 of a day as it is written.
fn day(text: &str) -> Option<i64> {
    let (year, rest) = text.split_once('-')?;
    let (month, day) = rest.split_once('-')?;
    let (mut year, month, day): (i64, i64, i64) = (year.parse().ok()?, month.parse().ok()?, day.parse().ok()?);
    if !(1..=12).contains(&month) || !(1..=31).contains(&day) {
        return None;
    }
    year -= i64::from(month <= 2);
    let era = year.div_euclid(400);
    let of_era = year - era * 400;
    let of_year = (153 * ((month + 9) % 12) + 2) / 5 + day - 1;
    Some(era * 146_097 + of_era * 365 + of_era / 4 - of_era / 100 + of_year - 719_468)
}

fn number(form: Form, text: &str) -> Option<i64> {
    match form {
        Whole => text.parse().ok(),
        Day => day(text),
        Cents => {
            let (dollars, cents) = text.split_once('.')?;
            Some(dollars.parse::<i64>().ok()? * 100 + cents.parse::<i64>().ok()?)
        }
        Program => PROGRAMS.iter().position(|word| *word == text).map(|place| place as i64),
    }
}

/// The numbers of a row, or the field that is none.
fn numbers(row: &str) -> Result<Vec<i64>, usize> {
    let mut fields = row.split(',');
    let forms = fields.next().and_then(forms_of).ok_or(1_usize)?;
    let mut numbers = Vec::with_capacity(forms.len());
    for (place, form) in forms.into_iter().enumerate() {
        let text = fields.next().ok_or(0_usize)?;
        numbers.push(number(form, text).ok_or(place + 2)?);
    }
    for text in fields {
        numbers.push(day(text).ok_or(0_usize)?);
    }
    Ok(numbers)
}

/// Opens the gate of the record before, where there is one, and appends numbers behind a closed gate.
fn append(file: &File, closed: Option<u64>, place: u64, numbers: &[i64]) -> io::Result<u64> {
    let size = 8 * numbers.len() as u32;
    let mut bytes = size.to_le_bytes().to_vec();
    for number in numbers {
        bytes.extend_from_slice(&number.to_le_bytes());
    }
    bytes.push(0);
    open(file, closed)?;
    file.write_all_at(&bytes, place + 1)?;
    file.sync_data()?;
    Ok(place + 5 + u64::from(size))
}

/// Opens a gate, where one is closed.
fn open(file: &File, closed: Option<u64>) -> io::Result<()> {
    match closed {
        Some(place) => file.write_all_at(&[1], place),
        None => Ok(()),
    }
}

fn main() -> io::Result<()> {
    let words: Vec<String> = env::args().skip(1).collect();
    let file = match words.iter().map(String::as_str).collect::<Vec<_>>()[..] {
        ["check"] => None,
        ["append", path] => Some(File::create(path)?),
        _ => process::exit(2),
    };
    let mut text = String::new();
    io::stdin().read_to_string(&mut text)?;
    let mut out = BufWriter::with_capacity(0, io::stdout());
    let (mut closed, mut place) = (None, 16);
    for (index, row) in text.lines().enumerate() {
        match numbers(row) {
            Ok(numbers) => {
                if let Some(file) = &file {
                    (closed, place) = (Some(place), append(file, closed, place, &numbers)?);
                }
                out.write_all(format!("{} fine\n", index + 1).as_bytes())?;
            }
            Err(field) => out.write_all(format!("{} error {}\n", index + 1, field).as_bytes())?,
        }
    }
    if let Some(file) = &file {
        open(file, closed)?;
        file.sync_data()?;
    }
    out.flush()
}
