// The rules of office.rs over a plain list of filings, which is read from end to end at each question: nothing is kept beside it.

use super::arithmetic::{Application, Book, Decision, Formula, Way, decide, formula_of, index};
use super::filings::*;
use super::office::{FSEOG_LIMIT, LIFETIME_LIMIT, Place, fits, intensity, payment, place_of, shares_day, use_of};
use super::returns::{Worksheet, worksheet};

const FIRST_YEAR: u16 = 2000;
const YEARS: usize = 100;

// The filings so far, the oldest first, each of which breaks no rule on those before it.
#[derive(Clone, Copy)]
pub struct Past<'a>(pub &'a [Filing]);

// Where a student stands in a year.
pub struct Standing {
    pub transaction: u8,
    pub formula: Formula,
    pub sai: i32,
    pub way: Way,
    pub scheduled: u32,
    pub paid: u64,
    pub used: u64,
}

// What moved in a student's term at a school: what stands by program, what was paid after a withdrawal, and what that left to pay.
#[derive(Default)]
struct Account {
    net: [u64; PROGRAMS],
    after: [u64; PROGRAMS],
    post: u64,
    withdrawn: bool,
}

// What a payment and a withdrawal read alike.
struct Facts<'a> {
    school: &'a School,
    term: &'a Calendar,
    apply: &'a Apply,
    cost: u32,
    credits: u8,
    withdrawal: Option<&'a Withdrawal>,
}

fn place_left(key: &Key, withdrawal: &Withdrawal) -> Place {
    let Withdrawal { student, year, term, .. } = *withdrawal;
    Place { student, school: key.school, year, term }
}

impl<'a> Past<'a> {
    // What the earliest filing tells that answers a question.
    fn first<A>(&self, ask: impl Fn(&'a Filing) -> Option<A>) -> Option<A> {
        self.0.iter().find_map(ask)
    }

    fn is_used(&self, key: &Key) -> bool {
        self.0.iter().any(|filing| filing.key == *key)
    }

    fn book(&self, year: u16) -> Option<&'a Book> {
        self.first(|filing| match &filing.what {
            What::Book(book) if book.year == year => Some(&**book),
            _ => None,
        })
    }

    fn school(&self, code: u32) -> Option<&'a School> {
        self.first(|filing| match &filing.what {
            What::School(school) if school.code == code => Some(school),
            _ => None,
        })
    }

    fn term(&self, school: u32, year: u16, number: u8) -> Option<&'a Calendar> {
        self.first(|filing| match &filing.what {
            What::Calendar(term) if filing.key.school == school && term.year == year && term.term == number => {
                Some(term)
            }
            _ => None,
        })
    }

    fn prior(&self, student: u64) -> Option<u32> {
        self.first(|filing| match &filing.what {
            What::Prior(prior) if prior.student == student => Some(prior.units),
            _ => None,
        })
    }

    fn cost(&self, school: u32, student: u64, year: u16) -> Option<u32> {
        self.first(|filing| match &filing.what {
            What::Originate(filed) if filing.key.school == school && filed.student == student && filed.year == year => {
                Some(filed.cost)
            }
            _ => None,
        })
    }

    fn withdrawal(&self, place: &Place) -> Option<&'a Withdrawal> {
        self.first(|filing| match &filing.what {
            What::Withdraw(withdrawal) if place_left(&filing.key, withdrawal) == *place => Some(withdrawal),
            _ => None,
        })
    }

    // Those that were filed last, 0 without any.
    fn credits(&self, place: &Place) -> u8 {
        let mut credits = 0;
        for filing in self.0 {
            match &filing.what {
                What::Enrol(filed)
                    if filed.student == place.student
                        && filing.key.school == place.school
                        && filed.year == place.year
                        && filed.term == place.term =>
                {
                    credits = filed.credits;
                }
                _ => {}
            }
        }
        credits
    }

    // The application in force: the one with the highest transaction.
    fn application(&self, student: u64, year: u16) -> Option<&'a Apply> {
        let mut in_force: Option<&Apply> = None;
        for filing in self.0 {
            match &filing.what {
                What::Apply(apply)
                    if apply.student == student
                        && apply.year == year
                        && in_force.is_none_or(|before| before.transaction < apply.transaction) =>
                {
                    in_force = Some(apply);
                }
                _ => {}
            }
        }
        in_force
    }

    // The years from 2000 on in which Pell was paid to a student.
    fn pell_years(&self, student: u64) -> [bool; YEARS] {
        let mut years = [false; YEARS];
        for filing in self.0 {
            match &filing.what {
                What::Pay(amount) if amount.student == student && amount.program == PELL => {
                    years[usize::from(amount.year - FIRST_YEAR)] = true;
                }
                _ => {}
            }
        }
        years
    }

    // The calendars on file with their schools.
    fn terms(&self) -> impl Iterator<Item = (u32, &'a Calendar)> {
        self.0.iter().filter_map(|filing| match &filing.what {
            What::Calendar(term) => Some((filing.key.school, term)),
            _ => None,
        })
    }

    fn account(&self, place: &Place) -> Account {
        let mut account = Account::default();
        for (index, filing) in self.0.iter().enumerate() {
            match &filing.what {
                What::Pay(amount) if place_of(&filing.key, amount) == *place => {
                    account.net[amount.program] += amount.cents;
                    if account.withdrawn {
                        account.after[amount.program] += amount.cents;
                    }
                }
                What::Adjust(amount) if place_of(&filing.key, amount) == *place => {
                    account.net[amount.program] -= amount.cents;
                }
                What::Withdraw(withdrawal) if place_left(&filing.key, withdrawal) == *place => {
                    let sheet = Past(&self.0[..index]).sheet(place, withdrawal, &account.net);
                    take(&mut account.net, &sheet.returned);
                    (account.post, account.withdrawn) = (sheet.post, true);
                }
                _ => {}
            }
        }
        account
    }

    fn sheet(&self, place: &Place, withdrawal: &Withdrawal, net: &[u64; PROGRAMS]) -> Worksheet {
        let term = self.term(place.school, place.year, place.term).unwrap();
        let completed = (withdrawal.last - term.first + 1) as u64;
        let total = (term.last - term.first + 1) as u64;
        worksheet(completed, total, withdrawal.charges, net, &withdrawal.could)
    }

    // What stands of each program in all places of which a test holds.
    fn net(&self, holds: impl Fn(&Place) -> bool) -> [u64; PROGRAMS] {
        let mut net = [0; PROGRAMS];
        for (index, filing) in self.0.iter().enumerate() {
            match &filing.what {
                What::Pay(amount) if holds(&place_of(&filing.key, amount)) => net[amount.program] += amount.cents,
                What::Adjust(amount) if holds(&place_of(&filing.key, amount)) => net[amount.program] -= amount.cents,
                What::Withdraw(withdrawal) => {
                    let place = place_left(&filing.key, withdrawal);
                    if holds(&place) {
                        let past = Past(&self.0[..index]);
                        take(&mut net, &past.sheet(&place, withdrawal, &past.account(&place).net).returned);
                    }
                }
                _ => {}
            }
        }
        net
    }

    fn net_of_year(&self, student: u64, year: u16) -> [u64; PROGRAMS] {
        self.net(|place| place.student == student && place.year == year)
    }

    fn pell_in_main_terms(&self, student: u64, year: u16) -> u64 {
        let is_main = |place: &Place| !self.term(place.school, place.year, place.term).unwrap().extra;
        self.net(|place| place.student == student && place.year == year && is_main(place))[PELL]
    }

    fn net_at_school(&self, school: u32, student: u64, year: u16) -> u64 {
        self.net(|place| place.student == student && place.school == school && place.year == year).iter().sum()
    }

    fn decision(&self, apply: &Apply) -> (Formula, Decision) {
        let book = self.book(apply.year).unwrap();
        (formula_of(book, &apply.application), decision(book, &apply.application))
    }

    fn scheduled(&self, student: u64, year: u16) -> u32 {
        self.application(student, year).map_or(0, |apply| self.decision(apply).1.scheduled)
    }

    // The lifetime units of a student without those of a year.
    fn used_else(&self, student: u64, year: u16) -> u64 {
        let paid = self.pell_years(student);
        let others = (FIRST_YEAR..).zip(paid).filter(|(other, is_paid)| *is_paid && *other != year);
        let of_others: u64 = others
            .map(|(other, _)| match self.net_of_year(student, other)[PELL] {
                0 => 0,
                net => use_of(net, self.scheduled(student, other)),
            })
            .sum();
        u64::from(self.prior(student).unwrap_or(0)) + of_others
    }

    pub fn standing(&self, student: u64, year: u16) -> Standing {
        let used = self.used_else(student, year);
        let Some(apply) = self.application(student, year) else {
            return Standing {
                transaction: 0,
                formula: Formula::A,
                sai: 0,
                way: Way::Nothing,
                scheduled: 0,
                paid: 0,
                used,
            };
        };
        let (formula, Decision { way, scheduled, sai }) = self.decision(apply);
        let paid = self.net_of_year(student, year)[PELL];
        let used = used + use_of(paid, scheduled);
        Standing { transaction: apply.transaction, formula, sai, way, scheduled, paid, used }
    }

    // Whether a filing of a new key breaks no rule on these.
    pub fn admits(&self, filing: &Filing) -> bool {
        let key = &filing.key;
        !self.is_used(key)
            && match &filing.what {
                What::Book(book) => key.school == 0 && self.book(book.year).is_none(),
                What::School(school) => key.school == 0 && self.school(school.code).is_none(),
                What::Calendar(calendar) => self.calendar(key, calendar),
                What::Prior(prior) => self.prior_use(key, prior),
                What::Apply(apply) => self.apply(key, apply),
                What::Enrol(enrolment) => self.enrol(key, enrolment),
                What::Originate(origination) => self.originate(key, origination),
                What::Pay(amount) => self.pay(key, amount).is_some(),
                What::Withdraw(withdrawal) => self.withdraw(key, withdrawal).is_some(),
                What::Adjust(amount) => self.adjust(key, amount),
            }
    }

    fn calendar(&self, key: &Key, calendar: &Calendar) -> bool {
        let Some(school) = self.school(key.school) else { return false };
        let terms = || self.terms().filter(|(code, _)| *code == key.school);
        let is_main = |term: &Calendar| term.year == calendar.year && !term.extra;
        self.term(key.school, calendar.year, calendar.term).is_none()
            && calendar.first <= calendar.last
            && !terms().any(|(_, term)| shares_day(term, calendar))
            && (calendar.extra || terms().filter(|(_, term)| is_main(term)).count() < school.terms.into())
    }

    fn prior_use(&self, key: &Key, prior: &Prior) -> bool {
        let is_pell = |filing: &Filing| match &filing.what {
            What::Pay(amount) => amount.student == prior.student && amount.program == PELL,
            _ => false,
        };
        key.school == 0
            && u64::from(prior.units) <= LIFETIME_LIMIT
            && self.prior(prior.student).is_none()
            && !self.0.iter().any(is_pell)
    }

    fn apply(&self, key: &Key, apply: &Apply) -> bool {
        if key.school != 0 && self.school(key.school).is_none() {
            return false;
        }
        let Some(book) = self.book(apply.year) else { return false };
        if fits(book, apply).is_err() {
            return false;
        }
        match self.application(apply.student, apply.year) {
            None => true,
            Some(in_force) => {
                apply.transaction > in_force.transaction
                    && self.corrects(apply, decision(book, &apply.application).scheduled)
            }
        }
    }

    // No limit is exceeded under another Scheduled Award.
    fn corrects(&self, apply: &Apply, scheduled: u32) -> bool {
        let Apply { student, year, .. } = *apply;
        let is_over = |school: u32, term: &Calendar| {
            let place = Place { student, school, year, term: term.term };
            match self.account(&place).net[PELL] {
                0 => false,
                net => net > payment(scheduled, self.credits(&place), self.school(school).unwrap()),
            }
        };
        if self.terms().any(|(school, term)| term.year == year && is_over(school, term)) {
            return false;
        }
        let (net, award) = (self.net_of_year(student, year)[PELL], u64::from(scheduled));
        self.pell_in_main_terms(student, year) <= 100 * award
            && net <= 150 * award
            && self.used_else(student, year) + use_of(net, scheduled) <= LIFETIME_LIMIT
    }

    fn enrol(&self, key: &Key, enrolment: &Enrolment) -> bool {
        let Enrolment { student, year, term, credits } = *enrolment;
        let place = Place { student, school: key.school, year, term };
        let Some(school) = self.school(key.school) else { return false };
        if self.term(key.school, year, term).is_none()
            || !(1..=40).contains(&credits)
            || self.withdrawal(&place).is_some()
        {
            return false;
        }
        match self.account(&place).net[PELL] {
            0 => true,
            net => net <= payment(self.scheduled(student, year), credits, school),
        }
    }

    fn originate(&self, key: &Key, origination: &Origination) -> bool {
        let Origination { student, year, cost } = *origination;
        self.school(key.school).is_some()
            && self.application(student, year).is_some()
            && self.cost(key.school, student, year).is_none()
            && cost > 0
    }

    // What an aid's rules read, or none where one of them has nothing to read.
    fn facts(&self, place: &Place) -> Option<Facts<'a>> {
        let Place { student, school, year, term } = *place;
        Some(Facts {
            school: self.school(school)?,
            term: self.term(school, year, term)?,
            apply: self.application(student, year)?,
            cost: self.cost(school, student, year)?,
            credits: Some(self.credits(place)).filter(|credits| *credits > 0)?,
            withdrawal: self.withdrawal(place),
        })
    }

    fn pay(&self, key: &Key, amount: &Amount) -> Option<()> {
        let Amount { student, year, program, cents, .. } = *amount;
        let place = place_of(key, amount);
        let facts = self.facts(&place)?;
        let is_pell = program == PELL;
        require(cents > 0 && !(is_pell && cents % 100 != 0))?;
        let account = self.account(&place);
        if let Some(withdrawal) = facts.withdrawal {
            require(account.after[program] + cents <= withdrawal.could[program])?;
            require(account.after.iter().sum::<u64>() + cents <= account.post)?;
        }
        let net = self.net_of_year(student, year);
        if is_pell {
            require(!self.is_paid_beside(&place, facts.term))?;
            self.pell_within(&facts, &account, &net, cents)?;
        }
        require(program != FSEOG || net[FSEOG] + cents <= FSEOG_LIMIT)?;
        self.within_cost(key, &facts, cents)
    }

    // So much Pell is within the limits of the term, of the year and of all years.
    fn pell_within(&self, facts: &Facts, account: &Account, net: &[u64; PROGRAMS], cents: u64) -> Option<()> {
        let scheduled = self.decision(facts.apply).1.scheduled;
        let is_longer = facts.term.extra && intensity(facts.credits, facts.school.full) >= 50;
        let awards = if is_longer { 150 } else { 100 };
        require(account.net[PELL] + cents <= payment(scheduled, facts.credits, facts.school))?;
        require(net[PELL] + cents <= awards * u64::from(scheduled))?;
        let used = self.used_else(facts.apply.student, facts.apply.year) + use_of(net[PELL] + cents, scheduled);
        require(used <= LIFETIME_LIMIT)
    }

    fn within_cost(&self, key: &Key, facts: &Facts, cents: u64) -> Option<()> {
        let net = self.net_at_school(key.school, facts.apply.student, facts.apply.year);
        require(net + cents <= 100 * u64::from(facts.cost))
    }

    // Pell stands in a term of another school that shares a day.
    fn is_paid_beside(&self, here: &Place, this: &Calendar) -> bool {
        self.terms().any(|(school, term)| {
            let place = Place { student: here.student, school, year: term.year, term: term.term };
            school != here.school && shares_day(term, this) && self.account(&place).net[PELL] > 0
        })
    }

    fn withdraw(&self, key: &Key, withdrawal: &Withdrawal) -> Option<()> {
        let place = place_left(key, withdrawal);
        let facts = self.facts(&place)?;
        require(facts.withdrawal.is_none())?;
        require(facts.term.first <= withdrawal.last && withdrawal.last <= facts.term.last)?;
        require(withdrawal.last <= withdrawal.determined)?;
        let (pell, fseog) = (withdrawal.could[PELL], withdrawal.could[FSEOG]);
        let net = self.net_of_year(withdrawal.student, withdrawal.year);
        if pell > 0 {
            self.pell_within(&facts, &self.account(&place), &net, pell)?;
        }
        require(fseog == 0 || net[FSEOG] + fseog <= FSEOG_LIMIT)?;
        match withdrawal.could.iter().sum() {
            0 => Some(()),
            all => self.within_cost(key, &facts, all),
        }
    }

    fn adjust(&self, key: &Key, amount: &Amount) -> bool {
        let place = place_of(key, amount);
        self.school(key.school).is_some()
            && self.term(key.school, amount.year, amount.term).is_some()
            && amount.cents > 0
            && self.withdrawal(&place).is_none()
            && amount.cents <= self.account(&place).net[amount.program]
    }
}

fn decision(book: &Book, application: &Application) -> Decision {
    decide(book, application, index(book, application).index)
}

fn take(net: &mut [u64; PROGRAMS], cents: &[u64; PROGRAMS]) {
    for (net, cents) in net.iter_mut().zip(cents) {
        *net -= cents;
    }
}

fn require(holds: bool) -> Option<()> {
    holds.then_some(())
}
