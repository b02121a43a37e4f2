// The office over ordered maps: the rules that the filings of orders.rs meet, in the order of each kind, with running totals
// in place of sums over the list.

use super::arithmetic::{Book, Formula, decide, formula_of, index};
use super::filings::*;
use super::returns::{Worksheet, half_up, worksheet};
use std::collections::BTreeMap;

const ROOM: usize = 1_000_000;
pub const LIFETIME_LIMIT: u64 = 600_000;
pub const FSEOG_LIMIT: u64 = 400_000;
const MOST_DOLLARS: u64 = 999_999;

struct SchoolRow {
    at: u32,
    school: School,
}

struct TermRow {
    at: u32,
    term: Calendar,
}

#[derive(Default)]
struct StudentRow {
    prior_at: u32,
    prior_units: u32,
    pell_at: u32,
}

#[derive(Default)]
struct YearRow {
    transaction: u8,
    scheduled: u32,
    pell_main: u64,
    net: [u64; PROGRAMS],
}

#[derive(Default)]
struct CostRow {
    at: u32,
    cost: u32,
    net: u64,
}

#[derive(Default)]
struct PlaceRow {
    credits: u8,
    net: [u64; PROGRAMS],
    withdrawn_at: u32,
    could: [u64; PROGRAMS],
    post: u64,
    after: [u64; PROGRAMS],
}

// A student's term at a school.
#[derive(Clone, Copy, PartialEq, Eq, PartialOrd, Ord)]
pub struct Place {
    pub student: u64,
    pub school: u32,
    pub year: u16,
    pub term: u8,
}

// What a payment reads of one place.
struct Facts<'a> {
    school: &'a School,
    term: &'a Calendar,
    year: &'a YearRow,
    cost: &'a CostRow,
    place: &'a PlaceRow,
}

#[derive(Default)]
pub struct Office {
    filings: Vec<Filing>,
    outcomes: Vec<Outcome>,
    keys: BTreeMap<Key, u32>,
    books: BTreeMap<u16, u32>,
    schools: BTreeMap<u32, SchoolRow>,
    terms: BTreeMap<(u32, u16, u8), TermRow>,
    students: BTreeMap<u64, StudentRow>,
    years: BTreeMap<(u64, u16), YearRow>,
    costs: BTreeMap<(u64, u32, u16), CostRow>,
    places: BTreeMap<Place, PlaceRow>,
}

pub type Rule = Result<(), Refusal>;

fn require(holds: bool, rule: u16, kept: u64, bound: u64) -> Rule {
    if holds { Ok(()) } else { Err(Refusal { rule, kept, bound }) }
}

fn at_most(rule: u16, kept: u64, bound: u64) -> Rule {
    require(kept <= bound, rule, kept, bound)
}

fn needed<T>(found: Option<T>, rule: u16, kept: u64, bound: u64) -> Result<T, Refusal> {
    found.ok_or(Refusal { rule, kept, bound })
}

// A day by its count since 1900-01-01.
fn day_count(day: i32) -> u64 {
    (day + 25_567) as u64
}

pub fn intensity(credits: u8, full: u8) -> u64 {
    half_up(100 * u64::from(credits), u64::from(full)).min(100)
}

// The Pell payment of a term in cents.
pub fn payment(scheduled: u32, credits: u8, school: &School) -> u64 {
    let percent = intensity(credits, school.full);
    100 * half_up(u64::from(scheduled) * percent, 100 * u64::from(school.terms))
}

// The lifetime units that a year's net cents use.
pub fn use_of(paid: u64, scheduled: u32) -> u64 {
    if paid == 0 { 0 } else { half_up(1000 * paid, u64::from(scheduled)) }
}

// The most cents of a year that use so many units.
fn most_cents(scheduled: u32, units: u64) -> u64 {
    let scheduled = u64::from(scheduled);
    (scheduled * (2 * units + 1) - 1) / 2000
}

pub fn shares_day(one: &Calendar, other: &Calendar) -> bool {
    one.first <= other.last && other.first <= one.last
}

pub fn place_of(key: &Key, amount: &Amount) -> Place {
    Place { student: amount.student, school: key.school, year: amount.year, term: amount.term }
}

// A birth year and a size of family that can be.
pub fn fits(book: &Book, apply: &Apply) -> Rule {
    let application = &apply.application;
    at_most(92, application.birth_year.into(), book.year.into())?;
    let couple = if application.married { 2 } else { 1 };
    let family = application.family;
    let (size, fits) = match formula_of(book, application) {
        Formula::A => (2, family >= 2),
        Formula::B => (couple, family == couple),
        Formula::C => (couple + 1, family > couple),
    };
    require(fits, 92, family.into(), size.into())
}

impl Facts<'_> {
    // The limit of the year's Pell: one and a half awards in an extra term of at least half intensity.
    fn limit_of_year(&self) -> u64 {
        let percent = intensity(self.place.credits, self.school.full);
        let awards = if self.term.extra && percent >= 50 { 150 } else { 100 };
        awards * u64::from(self.year.scheduled)
    }

    fn payment(&self) -> u64 {
        payment(self.year.scheduled, self.place.credits, self.school)
    }
}

impl Office {
    pub fn len(&self) -> usize {
        self.filings.len()
    }

    pub fn reserve(&mut self, filings: usize) {
        self.filings.reserve(filings);
        self.outcomes.reserve(filings);
    }

    pub fn judge(&self, filing: &Filing) -> Verdict {
        if let Some(&position) = self.keys.get(&filing.key) {
            return self.on_key(position, filing);
        }
        match self.broken(filing) {
            Ok(outcome) => Verdict::Admit(outcome),
            Err(refusal) => Verdict::Refused(refusal),
        }
    }

    fn on_key(&self, position: u32, filing: &Filing) -> Verdict {
        let index = position as usize - 1;
        if self.filings[index] == *filing {
            Verdict::Again { position, outcome: self.outcomes[index] }
        } else {
            Verdict::Refused(Refusal { rule: 15, kept: position.into(), bound: filing.key.number })
        }
    }

    // The outcome of a filing that breaks no rule, or the first that it breaks.
    fn broken(&self, filing: &Filing) -> Result<Outcome, Refusal> {
        require(self.filings.len() < ROOM, 90, ROOM as u64, ROOM as u64)?;
        let key = &filing.key;
        match &filing.what {
            What::Book(book) => self.book(key, book),
            What::School(school) => self.school(key, school),
            What::Calendar(calendar) => self.calendar(key, calendar),
            What::Prior(prior) => self.prior(key, prior),
            What::Apply(apply) => self.apply(key, apply),
            What::Enrol(enrolment) => self.enrol(key, enrolment),
            What::Originate(origination) => self.originate(key, origination),
            What::Pay(amount) => self.pay(key, amount),
            What::Withdraw(withdrawal) => self.withdraw(key, withdrawal),
            What::Adjust(amount) => self.adjust(key, amount),
        }
    }

    fn known_school(&self, code: u32) -> Result<&School, Refusal> {
        let row = needed(self.schools.get(&code), 12, code.into(), 0)?;
        Ok(&row.school)
    }

    fn known_term(&self, place: &Place) -> Result<&Calendar, Refusal> {
        let row = self.terms.get(&(place.school, place.year, place.term));
        Ok(&needed(row, 30, place.term.into(), 0)?.term)
    }

    fn applied(&self, student: u64, year: u16) -> Result<&YearRow, Refusal> {
        let row = self.years.get(&(student, year)).filter(|row| row.transaction > 0);
        needed(row, 31, student, year.into())
    }

    fn book(&self, key: &Key, book: &Book) -> Result<Outcome, Refusal> {
        at_most(14, key.school.into(), 0)?;
        if let Some(&at) = self.books.get(&book.year) {
            require(false, 11, at.into(), book.year.into())?;
        }
        Ok(Outcome::Noted)
    }

    fn school(&self, key: &Key, school: &School) -> Result<Outcome, Refusal> {
        at_most(14, key.school.into(), 0)?;
        if let Some(row) = self.schools.get(&school.code) {
            require(false, 13, row.at.into(), school.code.into())?;
        }
        Ok(Outcome::Noted)
    }

    fn calendar(&self, key: &Key, calendar: &Calendar) -> Result<Outcome, Refusal> {
        let school = self.known_school(key.school)?;
        if let Some(row) = self.terms.get(&(key.school, calendar.year, calendar.term)) {
            require(false, 20, row.at.into(), calendar.term.into())?;
        }
        let (first, last) = (day_count(calendar.first), day_count(calendar.last));
        require(first <= last, 21, last, first)?;
        let terms = || self.terms.range((key.school, 0, 0)..(key.school + 1, 0, 0)).map(|(_, row)| row);
        let overlapping = terms().filter(|row| shares_day(&row.term, calendar)).map(|row| row.at).min();
        if let Some(at) = overlapping {
            require(false, 22, at.into(), calendar.term.into())?;
        }
        if !calendar.extra {
            let main = terms().filter(|row| row.term.year == calendar.year && !row.term.extra).count();
            require(main < school.terms.into(), 24, main as u64, school.terms.into())?;
        }
        Ok(Outcome::Noted)
    }

    fn prior(&self, key: &Key, prior: &Prior) -> Result<Outcome, Refusal> {
        at_most(14, key.school.into(), 0)?;
        at_most(81, prior.units.into(), LIFETIME_LIMIT)?;
        if let Some(row) = self.students.get(&prior.student) {
            require(row.prior_at == 0, 80, row.prior_at.into(), prior.student)?;
            require(row.pell_at == 0, 82, row.pell_at.into(), prior.student)?;
        }
        Ok(Outcome::Noted)
    }

    fn apply(&self, key: &Key, apply: &Apply) -> Result<Outcome, Refusal> {
        if key.school != 0 {
            self.known_school(key.school)?;
        }
        let position = *needed(self.books.get(&apply.year), 10, apply.year.into(), 0)?;
        let What::Book(book) = &self.filings[position as usize - 1].what else { unreachable!() };
        fits(book, apply)?;
        let lines = index(book, &apply.application);
        let decision = decide(book, &apply.application, lines.index);
        if let Some(row) = self.years.get(&(apply.student, apply.year)) {
            require(apply.transaction > row.transaction, 91, apply.transaction.into(), row.transaction.into())?;
            self.corrects(apply, row, decision.scheduled)?;
        }
        Ok(Outcome::Indexed {
            formula: lines.formula,
            sai: decision.sai,
            way: decision.way,
            scheduled: decision.scheduled,
        })
    }

    // No limit is exceeded under another Scheduled Award.
    fn corrects(&self, apply: &Apply, row: &YearRow, scheduled: u32) -> Rule {
        for (place, found) in self.places_of(apply.student) {
            if place.year == apply.year && found.net[PELL] > 0 {
                let school = self.known_school(place.school)?;
                at_most(93, found.net[PELL], payment(scheduled, found.credits, school))?;
            }
        }
        let award = u64::from(scheduled);
        at_most(93, row.pell_main, 100 * award)?;
        at_most(93, row.net[PELL], 150 * award)?;
        let used = self.used_else(apply.student, apply.year) + use_of(row.net[PELL], scheduled);
        at_most(93, used, LIFETIME_LIMIT)
    }

    fn enrol(&self, key: &Key, enrolment: &Enrolment) -> Result<Outcome, Refusal> {
        let school = self.known_school(key.school)?;
        let Enrolment { student, year, term, credits } = *enrolment;
        let place = Place { student, school: key.school, year, term };
        self.known_term(&place)?;
        require((1..=40).contains(&credits), 32, credits.into(), 40)?;
        if let Some(row) = self.places.get(&place) {
            require(row.withdrawn_at == 0, 34, row.withdrawn_at.into(), term.into())?;
            let scheduled = self.years.get(&(student, year)).map_or(0, |row| row.scheduled);
            at_most(33, row.net[PELL], payment(scheduled, credits, school))?;
        }
        Ok(Outcome::Noted)
    }

    fn originate(&self, key: &Key, origination: &Origination) -> Result<Outcome, Refusal> {
        self.known_school(key.school)?;
        let Origination { student, year, cost } = *origination;
        self.applied(student, year)?;
        if let Some(row) = self.costs.get(&(student, key.school, year)) {
            require(false, 41, row.at.into(), year.into())?;
        }
        require(cost > 0, 42, 0, 1)?;
        Ok(Outcome::Noted)
    }

    // What an aid's rules read, or the first rule that has nothing to read.
    fn facts(&self, place: &Place, not_enrolled: u16) -> Result<Facts<'_>, Refusal> {
        let Place { student, school: code, year, term: number } = *place;
        let school = self.known_school(code)?;
        let term = self.known_term(place)?;
        let year_row = self.applied(student, year)?;
        let cost = needed(self.costs.get(&(student, code, year)), 50, student, code.into())?;
        let row = self.places.get(place).filter(|row| row.credits > 0);
        let place = needed(row, not_enrolled, student, number.into())?;
        Ok(Facts { school, term, year: year_row, cost, place })
    }

    fn pay(&self, key: &Key, amount: &Amount) -> Result<Outcome, Refusal> {
        let place = place_of(key, amount);
        let facts = self.facts(&place, 51)?;
        let Amount { student, year, program, cents, .. } = *amount;
        let is_pell = program == PELL;
        require(cents > 0 && !(is_pell && cents % 100 != 0), 53, cents, 100)?;
        if is_pell {
            require(facts.year.scheduled > 0, 40, facts.year.transaction.into(), 0)?;
            if let Some(other) = self.other_school(&place, facts.term) {
                require(false, 58, other.into(), key.school.into())?;
            }
        }
        if facts.place.withdrawn_at > 0 {
            at_most(52, facts.place.after[program] + cents, facts.place.could[program])?;
            at_most(52, facts.place.after.iter().sum::<u64>() + cents, facts.place.post)?;
        }
        let pell = if is_pell { cents } else { 0 };
        let used = self.used_else(student, year) + use_of(facts.year.net[PELL] + pell, facts.year.scheduled);
        if is_pell {
            at_most(54, facts.place.net[PELL] + cents, facts.payment())?;
            at_most(55, facts.year.net[PELL] + cents, facts.limit_of_year())?;
            at_most(56, used, LIFETIME_LIMIT)?;
        }
        if program == FSEOG {
            at_most(55, facts.year.net[FSEOG] + cents, FSEOG_LIMIT)?;
        }
        at_most(57, facts.cost.net + cents, 100 * u64::from(facts.cost.cost))?;
        Ok(Outcome::Paid { paid: facts.year.net[program] + cents, used: used as u32 })
    }

    fn withdraw(&self, key: &Key, withdrawal: &Withdrawal) -> Result<Outcome, Refusal> {
        let Withdrawal { student, year, term, last, determined, .. } = *withdrawal;
        let place = Place { student, school: key.school, year, term };
        let facts = self.facts(&place, 60)?;
        require(facts.place.withdrawn_at == 0, 61, facts.place.withdrawn_at.into(), term.into())?;
        require(facts.term.first <= last, 62, day_count(last), day_count(facts.term.first))?;
        at_most(62, day_count(last), day_count(facts.term.last))?;
        require(last <= determined, 21, day_count(determined), day_count(last))?;
        self.could_be_paid(&facts, withdrawal)?;
        let sheet = self.sheet(facts.term, facts.place, withdrawal);
        Ok(Outcome::Returned {
            percent: sheet.percent,
            school: sheet.school,
            owed: sheet.owed.iter().sum(),
            post: sheet.post,
        })
    }

    fn could_be_paid(&self, facts: &Facts, withdrawal: &Withdrawal) -> Rule {
        let pell = withdrawal.could[PELL];
        if pell > 0 {
            let used = self.used_else(withdrawal.student, withdrawal.year);
            at_most(63, facts.place.net[PELL] + pell, facts.payment())?;
            at_most(63, facts.year.net[PELL] + pell, facts.limit_of_year())?;
            at_most(63, used + use_of(facts.year.net[PELL] + pell, facts.year.scheduled), LIFETIME_LIMIT)?;
        }
        let fseog = withdrawal.could[FSEOG];
        if fseog > 0 {
            at_most(63, facts.year.net[FSEOG] + fseog, FSEOG_LIMIT)?;
        }
        let all: u64 = withdrawal.could.iter().sum();
        if all > 0 {
            at_most(63, facts.cost.net + all, 100 * u64::from(facts.cost.cost))?;
        }
        Ok(())
    }

    fn sheet(&self, term: &Calendar, place: &PlaceRow, withdrawal: &Withdrawal) -> Worksheet {
        let completed = (withdrawal.last - term.first + 1) as u64;
        let total = (term.last - term.first + 1) as u64;
        worksheet(completed, total, withdrawal.charges, &place.net, &withdrawal.could)
    }

    fn adjust(&self, key: &Key, amount: &Amount) -> Result<Outcome, Refusal> {
        self.known_school(key.school)?;
        let place = place_of(key, amount);
        self.known_term(&place)?;
        require(amount.cents > 0, 71, 0, 1)?;
        let row = self.places.get(&place);
        let withdrawn_at = row.map_or(0, |row| row.withdrawn_at);
        require(withdrawn_at == 0, 34, withdrawn_at.into(), amount.term.into())?;
        at_most(72, amount.cents, row.map_or(0, |row| row.net[amount.program]))?;
        Ok(Outcome::Noted)
    }

    // What stands of each program in each place of a year, by school, student and term.
    pub fn nets_of(&self, year: u16) -> Vec<(Place, [u64; PROGRAMS])> {
        let of_year = self.places.iter().filter(|(place, _)| place.year == year);
        let mut nets: Vec<_> = of_year.map(|(place, row)| (*place, row.net)).collect();
        nets.sort_unstable_by_key(|(place, _)| (place.school, place.student, place.term));
        nets
    }

    // The student's terms, by school, year and number.
    fn places_of(&self, student: u64) -> impl Iterator<Item = (&Place, &PlaceRow)> {
        let first = |student| Place { student, school: 0, year: 0, term: 0 };
        self.places.range(first(student)..first(student + 1))
    }

    // The least code of another school where Pell stands in a term that shares a day.
    fn other_school(&self, here: &Place, term: &Calendar) -> Option<u32> {
        self.places_of(here.student)
            .filter(|(place, row)| place.school != here.school && row.net[PELL] > 0)
            .find(|(place, _)| shares_day(&self.terms[&(place.school, place.year, place.term)].term, term))
            .map(|(place, _)| place.school)
    }

    // The lifetime units of a student without those of a year.
    fn used_else(&self, student: u64, year: u16) -> u64 {
        let prior = self.students.get(&student).map_or(0, |row| u64::from(row.prior_units));
        let others = self.years.range((student, 0)..(student + 1, 0));
        let used: u64 = others
            .filter(|((_, other), _)| *other != year)
            .map(|(_, row)| use_of(row.net[PELL], row.scheduled))
            .sum();
        prior + used
    }

    // The greatest Pell payment of whole dollars in cents, 0 where there is none.
    pub fn quote(&self, place: &Place) -> u64 {
        let Ok(facts) = self.facts(place, 51) else { return 0 };
        if self.filings.len() >= ROOM || facts.year.scheduled == 0 || self.other_school(place, facts.term).is_some() {
            return 0;
        }
        let dollars = |have: u64, limit: u64| limit.saturating_sub(have) / 100;
        let units = LIFETIME_LIMIT.checked_sub(self.used_else(place.student, place.year));
        let of_lifetime = units.map_or(0, |units| most_cents(facts.year.scheduled, units));
        let mut most = dollars(facts.place.net[PELL], facts.payment())
            .min(dollars(facts.year.net[PELL], facts.limit_of_year()))
            .min(dollars(facts.year.net[PELL], of_lifetime))
            .min(dollars(facts.cost.net, 100 * u64::from(facts.cost.cost)))
            .min(MOST_DOLLARS);
        if facts.place.withdrawn_at > 0 {
            most = most
                .min(dollars(facts.place.after[PELL], facts.place.could[PELL]))
                .min(dollars(facts.place.after.iter().sum(), facts.place.post));
        }
        100 * most
    }

    // Appends a filing that is admitted with this outcome.
    pub fn admit(&mut self, filing: Filing, outcome: Outcome) {
        let at = self.filings.len() as u32 + 1;
        let key = filing.key;
        self.keys.insert(key, at);
        match &filing.what {
            What::Book(book) => {
                self.books.insert(book.year, at);
            }
            What::School(school) => {
                self.schools.insert(school.code, SchoolRow { at, school: *school });
            }
            What::Calendar(term) => {
                self.terms.insert((key.school, term.year, term.term), TermRow { at, term: *term });
            }
            What::Prior(prior) => {
                let row = self.students.entry(prior.student).or_default();
                (row.prior_at, row.prior_units) = (at, prior.units);
            }
            What::Apply(apply) => {
                let row = self.years.entry((apply.student, apply.year)).or_default();
                let Outcome::Indexed { scheduled, .. } = outcome else { unreachable!() };
                (row.transaction, row.scheduled) = (apply.transaction, scheduled);
            }
            What::Enrol(enrolment) => {
                let Enrolment { student, year, term, credits } = *enrolment;
                let place = Place { student, school: key.school, year, term };
                self.places.entry(place).or_default().credits = credits;
            }
            What::Originate(origination) => {
                let place = (origination.student, key.school, origination.year);
                self.costs.insert(place, CostRow { at, cost: origination.cost, net: 0 });
            }
            What::Pay(amount) => self.paid(at, &place_of(&key, amount), amount),
            What::Withdraw(withdrawal) => self.withdrawn(at, &key, withdrawal),
            What::Adjust(amount) => {
                let mut cents = [0; PROGRAMS];
                cents[amount.program] = amount.cents;
                self.take(&place_of(&key, amount), &cents);
            }
        }
        self.filings.push(filing);
        self.outcomes.push(outcome);
    }

    fn paid(&mut self, at: u32, place: &Place, amount: &Amount) {
        let (program, cents) = (amount.program, amount.cents);
        let extra = self.terms[&(place.school, place.year, place.term)].term.extra;
        let row = self.places.entry(*place).or_default();
        row.net[program] += cents;
        if row.withdrawn_at > 0 {
            row.after[program] += cents;
        }
        self.costs.entry((place.student, place.school, place.year)).or_default().net += cents;
        let year = self.years.entry((place.student, place.year)).or_default();
        year.net[program] += cents;
        if program == PELL {
            if !extra {
                year.pell_main += cents;
            }
            let student = self.students.entry(place.student).or_default();
            if student.pell_at == 0 {
                student.pell_at = at;
            }
        }
    }

    fn withdrawn(&mut self, at: u32, key: &Key, withdrawal: &Withdrawal) {
        let Withdrawal { student, year, term, could, .. } = *withdrawal;
        let place = Place { student, school: key.school, year, term };
        let calendar = self.terms[&(place.school, year, term)].term;
        let sheet = self.sheet(&calendar, &self.places[&place], withdrawal);
        let row = self.places.entry(place).or_default();
        (row.withdrawn_at, row.could, row.post) = (at, could, sheet.post);
        self.take(&place, &sheet.returned);
    }

    fn take(&mut self, place: &Place, cents: &[u64; PROGRAMS]) {
        let extra = self.terms[&(place.school, place.year, place.term)].term.extra;
        let row = self.places.entry(*place).or_default();
        let year = self.years.entry((place.student, place.year)).or_default();
        for program in 0..PROGRAMS {
            row.net[program] -= cents[program];
            year.net[program] -= cents[program];
        }
        if !extra {
            year.pell_main -= cents[PELL];
        }
        let cost = self.costs.entry((place.student, place.school, place.year)).or_default();
        cost.net -= cents.iter().sum::<u64>();
    }
}
