// The filings of crate office_bench, in the same orders.

use super::arithmetic::{Application, Side, specimen_book};
use super::filings::*;
use super::office::Place;

const FIRST_YEAR: u16 = 2025;
const FIRST_DAY: i32 = 20_325;
const SCHOOLS: std::ops::RangeInclusive<u32> = 101..=104;
const YEARS: std::ops::RangeInclusive<u16> = FIRST_YEAR..=FIRST_YEAR + 3;
const FILINGS_OF_STUDENT: u32 = 4;
const SHARE: u32 = 2000;

// Who files, and is told what may be paid.
pub trait Desk {
    fn file(&mut self, filing: Filing);

    fn quote(&mut self, place: &Place) -> u64;

    // The filings so far.
    fn filings(&self) -> u32;

    fn file_under(&mut self, school: u32, number: u64, what: What) {
        self.file(Filing { key: Key { school, number }, what });
    }

    fn file_next(&mut self, school: u32, what: What) {
        self.file_under(school, u64::from(self.filings()) + 1, what);
    }
}

#[derive(Clone, Copy)]
enum Kind {
    Application,
    Enrolment,
    Origination,
    Payment,
    Withdrawal,
}

const KINDS: [Kind; 5] =
    [Kind::Application, Kind::Enrolment, Kind::Origination, Kind::Payment, Kind::Withdrawal];

struct Sequence(u64);

#[derive(Clone, Copy)]
struct Draws {
    school: u32,
    agi: u32,
    credits: u8,
    withdrawn: Option<i32>,
}

impl Sequence {
    fn draw(&mut self) -> u64 {
        self.0 = self
            .0
            .wrapping_mul(6_364_136_223_846_793_005)
            .wrapping_add(1_442_695_040_888_963_407);
        self.0 >> 32
    }

    fn draws(&mut self) -> Draws {
        let school = self.school();
        let agi = (self.draw() % 120_000) as u32;
        let credits = self.credits();
        let last = self.draw();
        let withdrawn = (last % 16 == 0).then_some((last / 16 % 100) as i32);
        Draws { school, agi, credits, withdrawn }
    }

    fn school(&mut self) -> u32 {
        101 + (self.draw() % 4) as u32
    }

    fn credits(&mut self) -> u8 {
        3 + (self.draw() % 10) as u8
    }

    fn place(&mut self, student: u64) -> Place {
        let school = self.school();
        let year = FIRST_YEAR + (self.draw() % 4) as u16;
        let term = 1 + (self.draw() % 8) as u8;
        Place { student, school, year, term }
    }
}

fn school(code: u32) -> What {
    What::School(School { code, terms: 2, full: 12 })
}

fn calendar(year: u16, term: u8, first: i32, last: i32) -> What {
    What::Calendar(Calendar { year, term, extra: term > 2, first, last })
}

fn application(student: u64, year: u16, agi: u32) -> What {
    let agi = agi as i32;
    let parents = Side { agi, tax: agi / 10, earned_first: agi, ..Side::default() };
    let application = Application {
        birth_year: year - 19,
        family: 4,
        married: false,
        graduate: false,
        bachelor: false,
        veteran: false,
        dependents: false,
        student_file: true,
        own: Side::default(),
        parents_married: true,
        parents_file: true,
        parent_age: 48,
        parents,
    };
    What::Apply(Apply { student, year, transaction: 1, application })
}

fn enrolment(place: &Place, credits: u8) -> What {
    let Place { student, year, term, .. } = *place;
    What::Enrol(Enrolment { student, year, term, credits })
}

fn origination(student: u64, year: u16) -> What {
    What::Originate(Origination { student, year, cost: 24_000 })
}

fn pell(place: &Place, cents: u64) -> Amount {
    Amount { student: place.student, year: place.year, term: place.term, program: PELL, cents }
}

fn withdrawal(place: &Place, days: i32) -> What {
    let last = FIRST_DAY + days;
    What::Withdraw(Withdrawal {
        student: place.student,
        year: place.year,
        term: place.term,
        last,
        determined: last + 7,
        charges: 200_000,
        could: [0; PROGRAMS],
    })
}

// Files about so many filings in the order that a word names; whether it names one.
pub fn file(desk: &mut impl Desk, order: &str, filings: u32) -> bool {
    match order {
        "students" => file_year(desk, 1, filings / FILINGS_OF_STUDENT),
        "kinds" => file_kinds(desk, filings / FILINGS_OF_STUDENT),
        "one" => file_long(desk, filings),
        "priors" => file_priors(desk, filings),
        _ => return false,
    }
    true
}

// Files the year of so many students, drawn from a seed.
pub fn file_year(desk: &mut impl Desk, seed: u64, students: u32) {
    file_schools(desk);
    let mut sequence = Sequence(seed);
    for student in 1..=students {
        let draws = sequence.draws();
        for kind in KINDS {
            file_kind(desk, kind, student.into(), draws);
        }
    }
}

fn file_kinds(desk: &mut impl Desk, students: u32) {
    file_schools(desk);
    for kind in KINDS {
        let mut sequence = Sequence(1);
        for student in 1..=students {
            file_kind(desk, kind, student.into(), sequence.draws());
        }
    }
}

fn file_schools(desk: &mut impl Desk) {
    desk.file_under(0, 1, What::Book(Box::new(specimen_book())));
    for code in SCHOOLS {
        desk.file_under(0, u64::from(code) - 99, school(code));
    }
    for code in SCHOOLS {
        desk.file_under(code, 1, calendar(FIRST_YEAR, 1, FIRST_DAY, 20_434));
        desk.file_under(code, 2, calendar(FIRST_YEAR, 2, 20_465, 20_574));
    }
}

fn file_kind(desk: &mut impl Desk, kind: Kind, student: u64, draws: Draws) {
    let number = 10 * student;
    let school = draws.school;
    let place = Place { student, school, year: FIRST_YEAR, term: 1 };
    match kind {
        Kind::Application => desk.file_under(school, number, application(student, FIRST_YEAR, draws.agi)),
        Kind::Enrolment => desk.file_under(school, number + 1, enrolment(&place, draws.credits)),
        Kind::Origination => desk.file_under(school, number + 2, origination(student, FIRST_YEAR)),
        Kind::Payment => match desk.quote(&place) {
            0 => {}
            cents => desk.file_under(school, number + 3, What::Pay(pell(&place, cents))),
        },
        Kind::Withdrawal => {
            if let Some(days) = draws.withdrawn {
                desk.file_under(school, number + 4, withdrawal(&place, days));
            }
        }
    }
}

fn file_priors(desk: &mut impl Desk, students: u32) {
    for student in 1..=u64::from(students) {
        desk.file_under(0, student, What::Prior(Prior { student, units: 1000 }));
    }
}

fn file_long(desk: &mut impl Desk, filings: u32) {
    file_long_schools(desk);
    let mut sequence = Sequence(1);
    for student in 1..=filings.div_ceil(SHARE) {
        let until = (desk.filings() + SHARE).min(filings).saturating_sub(2);
        file_long_student(desk, &mut sequence, student.into(), until);
    }
}

fn file_long_schools(desk: &mut impl Desk) {
    for year in YEARS {
        let mut book = specimen_book();
        book.year = year;
        desk.file_next(0, What::Book(Box::new(book)));
    }
    for code in SCHOOLS {
        desk.file_next(0, school(code));
    }
    for code in SCHOOLS {
        for year in YEARS {
            file_terms(desk, code, year);
        }
    }
}

fn file_terms(desk: &mut impl Desk, code: u32, year: u16) {
    let begun = FIRST_DAY + 365 * i32::from(year - FIRST_YEAR) + 10 * (code - 101) as i32;
    for term in 1..=8 {
        let first = begun + 42 * (i32::from(term) - 1);
        desk.file_next(code, calendar(year, term, first, first + 41));
    }
}

fn file_long_student(desk: &mut impl Desk, sequence: &mut Sequence, student: u64, until: u32) {
    for year in YEARS {
        let income = (sequence.draw() % 60_000) as u32;
        desk.file_next(101, application(student, year, income));
        for code in SCHOOLS {
            desk.file_next(code, origination(student, year));
        }
    }
    let mut standing: [Option<(Place, u64)>; 4] = [None; 4];
    for round in 0.. {
        if until <= desk.filings() {
            break;
        }
        let slot = &mut standing[round % 4];
        if let Some((place, cents)) = slot {
            desk.file_next(place.school, What::Adjust(pell(place, *cents)));
        }
        *slot = enrol_and_pay(desk, sequence, student);
    }
}

fn enrol_and_pay(desk: &mut impl Desk, sequence: &mut Sequence, student: u64) -> Option<(Place, u64)> {
    let place = sequence.place(student);
    let credits = sequence.credits();
    desk.file_next(place.school, enrolment(&place, credits));
    let cents = desk.quote(&place);
    if cents == 0 {
        return None;
    }
    desk.file_next(place.school, What::Pay(pell(&place, cents)));
    Some((place, cents))
}
