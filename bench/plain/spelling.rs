// Filings in the bytes of a journal's payload, both ways. A book's bytes are the caller's where it is put, and its figures
// aren't judged where it is taken.

use super::arithmetic::{AgeRow, Allowance, Application, Book, Bracket, Side};
use super::filings::*;

// Appends the spelling of a filing.
pub fn put(filing: &Filing, book: &[u8], out: &mut Vec<u8>) {
    let code: u8 = match &filing.what {
        What::Book(_) => return out.extend_from_slice(book),
        What::School(_) => 2,
        What::Calendar(_) => 3,
        What::Prior(_) => 4,
        What::Apply(_) => 5,
        What::Enrol(_) => 6,
        What::Originate(_) => 7,
        What::Pay(_) => 8,
        What::Withdraw(_) => 9,
        What::Adjust(_) => 11,
    };
    out.push(code);
    out.extend_from_slice(&filing.key.school.to_le_bytes());
    out.extend_from_slice(&filing.key.number.to_le_bytes());
    match &filing.what {
        What::Book(_) => {}
        What::School(school) => {
            out.extend_from_slice(&school.code.to_le_bytes());
            out.extend_from_slice(&[school.terms, school.full]);
        }
        What::Calendar(term) => {
            out.extend_from_slice(&term.year.to_le_bytes());
            out.extend_from_slice(&[term.term, term.extra.into()]);
            out.extend_from_slice(&term.first.to_le_bytes());
            out.extend_from_slice(&term.last.to_le_bytes());
            out.push(0);
        }
        What::Prior(prior) => {
            out.extend_from_slice(&prior.student.to_le_bytes());
            out.extend_from_slice(&prior.units.to_le_bytes());
        }
        What::Apply(apply) => put_application(apply, out),
        What::Enrol(enrolment) => {
            put_place(enrolment.student, enrolment.year, out);
            out.extend_from_slice(&[enrolment.term, enrolment.credits]);
        }
        What::Originate(origination) => {
            put_place(origination.student, origination.year, out);
            out.extend_from_slice(&origination.cost.to_le_bytes());
        }
        What::Pay(amount) | What::Adjust(amount) => {
            put_place(amount.student, amount.year, out);
            out.extend_from_slice(&[amount.term, amount.program as u8]);
            out.extend_from_slice(&amount.cents.to_le_bytes());
        }
        What::Withdraw(withdrawal) => {
            put_place(withdrawal.student, withdrawal.year, out);
            out.push(withdrawal.term);
            out.extend_from_slice(&withdrawal.last.to_le_bytes());
            out.extend_from_slice(&withdrawal.determined.to_le_bytes());
            out.extend_from_slice(&withdrawal.charges.to_le_bytes());
            for cents in &withdrawal.could {
                out.extend_from_slice(&cents.to_le_bytes());
            }
        }
    }
}

fn put_place(student: u64, year: u16, out: &mut Vec<u8>) {
    out.extend_from_slice(&student.to_le_bytes());
    out.extend_from_slice(&year.to_le_bytes());
}

// No field of the generated applications stands here that isn't 0: region, and the circumstances past `dependents`.
fn put_application(apply: &Apply, out: &mut Vec<u8>) {
    let application = &apply.application;
    put_place(apply.student, apply.year, out);
    out.push(apply.transaction);
    out.extend_from_slice(&application.birth_year.to_le_bytes());
    out.extend_from_slice(&[0, application.family]);
    let marks = [application.married, application.graduate, application.bachelor, application.veteran, application.dependents];
    out.extend(marks.map(u8::from));
    out.extend_from_slice(&[0; 5]);
    out.push(application.student_file.into());
    put_side(&application.own, out);
    out.extend_from_slice(&[application.parents_married.into(), application.parents_file.into(), application.parent_age]);
    put_side(&application.parents, out);
}

fn put_side(side: &Side, out: &mut Vec<u8>) {
    let amounts = [
        side.agi, side.ira, side.interest, side.ira_untaxed, side.pension, side.foreign, side.grants, side.credits,
        side.work_study, side.tax, side.earned_first, side.earned_second, side.support, side.cash, side.investments, side.business,
    ];
    for amount in amounts {
        out.extend_from_slice(&i64::from(amount).to_le_bytes());
    }
}

// What is left of a payload.
struct Bytes<'a>(&'a [u8]);

impl Bytes<'_> {
    fn take<const N: usize>(&mut self) -> Option<[u8; N]> {
        let (front, rest) = self.0.split_first_chunk::<N>()?;
        self.0 = rest;
        Some(*front)
    }

    fn one(&mut self) -> Option<u8> {
        Some(self.take::<1>()?[0])
    }

    fn short(&mut self) -> Option<u16> {
        Some(u16::from_le_bytes(self.take()?))
    }

    fn word(&mut self) -> Option<u32> {
        Some(u32::from_le_bytes(self.take()?))
    }

    fn long(&mut self) -> Option<u64> {
        Some(u64::from_le_bytes(self.take()?))
    }

    fn day(&mut self) -> Option<i32> {
        Some(i32::from_le_bytes(self.take()?))
    }

    fn flag(&mut self) -> Option<bool> {
        match self.one()? {
            0 => Some(false),
            1 => Some(true),
            _ => None,
        }
    }

    fn figures<const N: usize>(&mut self) -> Option<[i64; N]> {
        let mut figures = [0; N];
        for figure in &mut figures {
            *figure = i64::from_le_bytes(self.take()?);
        }
        Some(figures)
    }

    fn allowance(&mut self) -> Option<Allowance> {
        let (sizes, [extra]) = (self.figures()?, self.figures()?);
        Some(Allowance { sizes, extra })
    }

    fn rows<R>(&mut self, row: impl Fn([i64; 3]) -> R) -> Option<Vec<R>> {
        (0..self.one()?).map(|_| Some(row(self.figures()?))).collect()
    }

    // A book of form 1, of whose three poverty guidelines the first is kept.
    fn book(&mut self) -> Option<Book> {
        let [form, year, maximum, minimum] = self.figures()?;
        let (percent, poverty, [poverty_extra]) = (self.figures()?, self.figures()?, self.figures()?);
        self.figures::<18>()?;
        let [oasdi_cap, oasdi_rate, medicare_rate, medicare_high, threshold_single, threshold_married] = self.figures()?;
        let parents = self.allowance()?;
        let [dependent_student, single_student, married_student] = self.figures()?;
        let (single_parent, married_parent) = (self.allowance()?, self.allowance()?);
        let [employment_cap, employment_rate] = self.figures()?;
        let [parents_rate, dependent_rate, no_dependents_rate, with_dependents_rate] = self.figures()?;
        let bracket = |[over, base, rate]: [i64; 3]| Bracket { over, base, rate };
        let business = self.rows(bracket)?;
        let age = self.rows(|[start, single, married]| AgeRow { start, single, married })?;
        let [low_at, low, first_rate, student_rate, lowest_student] = self.figures()?;
        let bracket = self.rows(bracket)?;
        let year = u16::try_from(year).ok().filter(|_| form == 1)?;
        Some(Book {
            year, maximum, minimum, percent, poverty, poverty_extra, oasdi_cap, oasdi_rate, medicare_rate, medicare_high,
            threshold_single, threshold_married, parents, dependent_student, single_student, married_student, single_parent,
            married_parent, employment_cap, employment_rate, parents_rate, dependent_rate, no_dependents_rate,
            with_dependents_rate, business, age, low_at, low, first_rate, student_rate, lowest_student, bracket,
        })
    }

    fn amount(&mut self) -> Option<Amount> {
        Some(Amount {
            student: self.long()?,
            year: self.short()?,
            term: self.one()?,
            program: Some(usize::from(self.one()?)).filter(|program| *program < PROGRAMS)?,
            cents: self.long()?,
        })
    }

    fn amounts(&mut self) -> Option<[i32; 16]> {
        let figures: [i64; 16] = self.figures()?;
        let mut amounts = [0; 16];
        for (amount, figure) in amounts.iter_mut().zip(figures) {
            *amount = i32::try_from(figure).ok()?;
        }
        Some(amounts)
    }

    fn side(&mut self) -> Option<Side> {
        let [
            agi, ira, interest, ira_untaxed, pension, foreign, grants, credits, work_study, tax, earned_first, earned_second,
            support, cash, investments, business,
        ] = self.amounts()?;
        Some(Side {
            agi, ira, interest, ira_untaxed, pension, foreign, grants, credits, work_study, tax, earned_first, earned_second,
            support, cash, investments, business,
        })
    }

    fn apply(&mut self) -> Option<Apply> {
        let (student, year, transaction) = (self.long()?, self.short()?, self.one()?);
        let birth_year = self.short()?;
        let (region, family) = (self.one()?, self.one()?);
        let mut marks = [false; 10];
        for mark in &mut marks {
            *mark = self.flag()?;
        }
        if region != 0 || marks[5..].contains(&true) {
            return None;
        }
        let application = Application {
            birth_year,
            family,
            married: marks[0],
            graduate: marks[1],
            bachelor: marks[2],
            veteran: marks[3],
            dependents: marks[4],
            student_file: self.flag()?,
            own: self.side()?,
            parents_married: self.flag()?,
            parents_file: self.flag()?,
            parent_age: self.one()?,
            parents: self.side()?,
        };
        Some(Apply { student, year, transaction, application })
    }

    fn withdrawal(&mut self) -> Option<Withdrawal> {
        let (student, year, term) = (self.long()?, self.short()?, self.one()?);
        let (last, determined, charges) = (self.day()?, self.day()?, self.long()?);
        let mut could = [0; PROGRAMS];
        for cents in &mut could {
            *cents = self.long()?;
        }
        Some(Withdrawal { student, year, term, last, determined, charges, could })
    }
}

// The filing of a payload of a kind that the office over maps has.
pub fn take(payload: &[u8]) -> Option<Filing> {
    let mut bytes = Bytes(payload);
    let code = bytes.one()?;
    let key = Key { school: bytes.word()?, number: bytes.long()? };
    let what = match code {
        1 => What::Book(Box::new(bytes.book()?)),
        2 => What::School(School { code: bytes.word()?, terms: bytes.one()?, full: bytes.one()? }),
        3 => {
            let (year, term, extra) = (bytes.short()?, bytes.one()?, bytes.flag()?);
            let (first, last) = (bytes.day()?, bytes.day()?);
            (bytes.one()? == 0).then_some(What::Calendar(Calendar { year, term, extra, first, last }))?
        }
        4 => What::Prior(Prior { student: bytes.long()?, units: bytes.word()? }),
        5 => What::Apply(bytes.apply()?),
        6 => What::Enrol(Enrolment { student: bytes.long()?, year: bytes.short()?, term: bytes.one()?, credits: bytes.one()? }),
        7 => What::Originate(Origination { student: bytes.long()?, year: bytes.short()?, cost: bytes.word()? }),
        8 => What::Pay(bytes.amount()?),
        9 => What::Withdraw(bytes.withdrawal()?),
        11 => What::Adjust(bytes.amount()?),
        _ => return None,
    };
    bytes.0.is_empty().then_some(Filing { key, what })
}
