// An auditor in plain Rust: it judges each filing of an export on the list of those before it, which it reads afresh, and
// compares each standing and the counts of the end line. Breaks, repayments and what else the office over maps leaves out are none,
// and the figures of a book aren't judged. A stamp's day and name, and the seal, which std has no hash for, are taken as they stand.
//
// usage: plain_audit < EXPORT      prints `yes FILINGS STANDINGS SEAL`, or `no LINE` with the first bad line

mod plain;

use plain::afresh::{Past, Standing};
use plain::arithmetic::{Application, Formula, Side, Way};
use plain::filings::{Amount, Filing, Key, What};
use plain::spelling;
use std::io::{self, Read};

const MOST_FILINGS: usize = 20_000;
// The bytes of a stamp's day, behind which the length of its name stands.
const DAY: usize = 4;
const MOST_CENTS: u64 = 99_999_999;
const MOST_DOLLARS: i32 = 99_999_999;
const MOST_NUMBER: u64 = 999_999_999_999;
const MOST_CODE: u32 = 999_999;
// 1900-01-01 and 9999-12-31.
const FIRST_DAY: i32 = -25_567;
const LAST_DAY: i32 = 2_932_896;

// What the good lines told so far.
#[derive(Default)]
struct Auditor {
    filings: Vec<Filing>,
    standings: usize,
    last: u64,
    seal: String,
    ended: bool,
}

impl Auditor {
    // Whether the next line is good, which is then taken.
    fn take(&mut self, line: &[u8]) -> bool {
        if self.ended {
            return false;
        }
        if let Some(digits) = line.strip_prefix(b"filing ") {
            return self.take_filing(digits).is_some();
        }
        if line.starts_with(b"standing ") {
            return self.take_standing(line).is_some();
        }
        let counts = format!("end {} {} ", self.filings.len(), self.standings);
        let seal = line.strip_prefix(counts.as_bytes()).and_then(|rest| rest.strip_suffix(b"\n"));
        self.ended = seal.is_some_and(|seal| seal.len() == 64 && seal.iter().all(|sign| digit(*sign).is_some()));
        self.seal = String::from_utf8_lossy(seal.unwrap_or_default()).into_owned();
        self.ended
    }

    fn take_filing(&mut self, digits: &[u8]) -> Option<()> {
        if self.standings > 0 || self.filings.len() == MOST_FILINGS {
            return None;
        }
        let payload = bytes_of(digits.strip_suffix(b"\n")?)?;
        let name = usize::from(*payload.get(DAY)?);
        let filing = spelling::take(payload.get(DAY + 1 + name..)?)?;
        if !is_in_range(&filing) || !Past(&self.filings).admits(&filing) {
            return None;
        }
        self.filings.push(filing);
        Some(())
    }

    fn take_standing(&mut self, line: &[u8]) -> Option<()> {
        let mut words = std::str::from_utf8(line).ok()?.split(' ').skip(1);
        let student = words.next()?.parse().ok().filter(is_number)?;
        let year = words.next()?.parse().ok().filter(is_year)?;
        if student <= self.last
            || line != standing_line(student, year, &Past(&self.filings).standing(student, year)).as_bytes()
        {
            return None;
        }
        self.last = student;
        self.standings += 1;
        Some(())
    }
}

fn standing_line(student: u64, year: u16, standing: &Standing) -> String {
    let Standing { transaction, sai, scheduled, paid, used, .. } = standing;
    let formula = match standing.formula {
        Formula::A => 'A',
        Formula::B => 'B',
        Formula::C => 'C',
    };
    let way = match standing.way {
        Way::Maximum => "maximum",
        Way::Calculated => "calculated",
        Way::Minimum => "minimum",
        Way::Nothing => "nothing",
    };
    let paid = format!("{}.{:02}", paid / 100, paid % 100);
    format!("standing {student} {year} {transaction} {formula} {sai} {way} {scheduled} {paid} {used}\n")
}

fn bytes_of(digits: &[u8]) -> Option<Vec<u8>> {
    let (pairs, rest) = digits.as_chunks::<2>();
    let bytes = pairs.iter().map(|[high, low]| Some(16 * digit(*high)? + digit(*low)?)).collect();
    if rest.is_empty() { bytes } else { None }
}

fn digit(sign: u8) -> Option<u8> {
    match sign {
        b'0'..=b'9' => Some(sign - b'0'),
        b'a'..=b'f' => Some(sign - b'a' + 10),
        _ => None,
    }
}

fn is_number(number: &u64) -> bool {
    (1..=MOST_NUMBER).contains(number)
}

fn is_year(year: &u16) -> bool {
    (2000..=2099).contains(year)
}

fn is_day(day: i32) -> bool {
    (FIRST_DAY..=LAST_DAY).contains(&day)
}

fn is_term(term: u8) -> bool {
    (1..=8).contains(&term)
}

// Whether each field of a filing is in its range.
fn is_in_range(filing: &Filing) -> bool {
    let Key { school, number } = filing.key;
    school <= MOST_CODE
        && is_number(&number)
        && match &filing.what {
            What::Book(book) => is_year(&book.year),
            What::School(school) => {
                (1..=MOST_CODE).contains(&school.code)
                    && (2..=3).contains(&school.terms)
                    && (1..=40).contains(&school.full)
            }
            What::Calendar(term) => {
                is_year(&term.year) && is_term(term.term) && is_day(term.first) && is_day(term.last)
            }
            What::Prior(prior) => is_number(&prior.student),
            What::Apply(apply) => {
                is_number(&apply.student)
                    && is_year(&apply.year)
                    && (1..=99).contains(&apply.transaction)
                    && is_application(&apply.application)
            }
            What::Enrol(filed) => is_number(&filed.student) && is_year(&filed.year) && is_term(filed.term),
            What::Originate(filed) => is_number(&filed.student) && is_year(&filed.year) && filed.cost <= MOST_CODE,
            What::Pay(amount) | What::Adjust(amount) => is_amount(amount),
            What::Withdraw(filed) => {
                is_number(&filed.student)
                    && is_year(&filed.year)
                    && is_term(filed.term)
                    && is_day(filed.last)
                    && is_day(filed.determined)
                    && filed.charges <= MOST_CENTS
                    && filed.could.iter().all(|cents| *cents <= MOST_CENTS)
            }
        }
}

fn is_amount(amount: &Amount) -> bool {
    is_number(&amount.student) && is_year(&amount.year) && is_term(amount.term) && amount.cents <= MOST_CENTS
}

fn is_application(application: &Application) -> bool {
    (1900..=2099).contains(&application.birth_year)
        && (1..=30).contains(&application.family)
        && application.parent_age <= 120
        && is_side(&application.own)
        && is_side(&application.parents)
}

fn is_side(side: &Side) -> bool {
    let amounts = [
        side.ira, side.interest, side.ira_untaxed, side.pension, side.foreign, side.grants, side.credits, side.work_study,
        side.earned_first, side.earned_second, side.support, side.cash, side.investments, side.business,
    ];
    let of_either_sign = [side.agi, side.tax];
    amounts.iter().all(|amount| (0..=MOST_DOLLARS).contains(amount))
        && of_either_sign.iter().all(|amount| (-MOST_DOLLARS..=MOST_DOLLARS).contains(amount))
}

fn main() -> io::Result<()> {
    let mut text = Vec::new();
    io::stdin().read_to_end(&mut text)?;
    let mut auditor = Auditor::default();
    let all_good = text.split_inclusive(|byte| *byte == b'\n').all(|line| auditor.take(line));
    let Auditor { filings, standings, ended, seal, .. } = auditor;
    if all_good && ended {
        println!("yes {} {standings} {seal}", filings.len());
    } else {
        println!("no {}", filings.len() + standings + usize::from(ended) + 1);
    }
    Ok(())
}
