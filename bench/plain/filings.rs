// What is filed and what the office answers, as the crate aid_filings has it. A book's year stands in it; terms
// have no breaks; nothing is repaid.

use super::arithmetic::{Application, Book, Formula, Way};

pub const PROGRAMS: usize = 6;
pub const PELL: usize = 3;
pub const FSEOG: usize = 4;

#[derive(Clone, Copy, PartialEq, Eq, PartialOrd, Ord)]
pub struct Key {
    pub school: u32,
    pub number: u64,
}

#[derive(Clone, Copy, PartialEq)]
pub struct School {
    pub code: u32,
    pub terms: u8,
    pub full: u8,
}

#[derive(Clone, Copy, PartialEq)]
pub struct Calendar {
    pub year: u16,
    pub term: u8,
    pub extra: bool,
    pub first: i32,
    pub last: i32,
}

#[derive(Clone, Copy, PartialEq)]
pub struct Prior {
    pub student: u64,
    pub units: u32,
}

#[derive(Clone, Copy, PartialEq)]
pub struct Apply {
    pub student: u64,
    pub year: u16,
    pub transaction: u8,
    pub application: Application,
}

#[derive(Clone, Copy, PartialEq)]
pub struct Enrolment {
    pub student: u64,
    pub year: u16,
    pub term: u8,
    pub credits: u8,
}

#[derive(Clone, Copy, PartialEq)]
pub struct Origination {
    pub student: u64,
    pub year: u16,
    pub cost: u32,
}

#[derive(Clone, Copy, PartialEq)]
pub struct Amount {
    pub student: u64,
    pub year: u16,
    pub term: u8,
    pub program: usize,
    pub cents: u64,
}

#[derive(Clone, Copy, PartialEq)]
pub struct Withdrawal {
    pub student: u64,
    pub year: u16,
    pub term: u8,
    pub last: i32,
    pub determined: i32,
    pub charges: u64,
    pub could: [u64; PROGRAMS],
}

#[derive(PartialEq)]
pub enum What {
    Book(Box<Book>),
    School(School),
    Calendar(Calendar),
    Prior(Prior),
    Apply(Apply),
    Enrol(Enrolment),
    Originate(Origination),
    Pay(Amount),
    Withdraw(Withdrawal),
    Adjust(Amount),
}

#[derive(PartialEq)]
pub struct Filing {
    pub key: Key,
    pub what: What,
}

#[derive(Clone, Copy)]
pub enum Outcome {
    Noted,
    Indexed { formula: Formula, sai: i32, way: Way, scheduled: u32 },
    Paid { paid: u64, used: u32 },
    Returned { percent: u16, school: u64, owed: u64, post: u64 },
}

#[derive(Clone, Copy)]
pub struct Refusal {
    pub rule: u16,
    pub kept: u64,
    pub bound: u64,
}

pub enum Verdict {
    Again { position: u32, outcome: Outcome },
    Refused(Refusal),
    Admit(Outcome),
}
