// The same arithmetic as crates aid_types, law_sai and law_pell in plain Rust, for books of form 1,
// and the specimen book.

#[derive(Clone, Copy, PartialEq, Default)]
pub struct Side {
    pub agi: i32,
    pub ira: i32,
    pub interest: i32,
    pub ira_untaxed: i32,
    pub pension: i32,
    pub foreign: i32,
    pub grants: i32,
    pub credits: i32,
    pub work_study: i32,
    pub tax: i32,
    pub earned_first: i32,
    pub earned_second: i32,
    pub support: i32,
    pub cash: i32,
    pub investments: i32,
    pub business: i32,
}

#[derive(Clone, Copy, PartialEq)]
pub struct Application {
    pub birth_year: u16,
    pub family: u8,
    pub married: bool,
    pub graduate: bool,
    pub bachelor: bool,
    pub veteran: bool,
    pub dependents: bool,
    pub student_file: bool,
    pub own: Side,
    pub parents_married: bool,
    pub parents_file: bool,
    pub parent_age: u8,
    pub parents: Side,
}

#[derive(Clone, Copy, PartialEq)]
pub struct Bracket {
    pub over: i64,
    pub base: i64,
    pub rate: i64,
}

#[derive(Clone, Copy, PartialEq)]
pub struct AgeRow {
    pub start: i64,
    pub single: i64,
    pub married: i64,
}

#[derive(PartialEq)]
pub struct Allowance {
    pub sizes: [i64; 5],
    pub extra: i64,
}

#[derive(PartialEq)]
pub struct Book {
    pub year: u16,
    pub maximum: i64,
    pub minimum: i64,
    pub percent: [i64; 7],
    pub poverty: [i64; 8],
    pub poverty_extra: i64,
    pub oasdi_cap: i64,
    pub oasdi_rate: i64,
    pub medicare_rate: i64,
    pub medicare_high: i64,
    pub threshold_single: i64,
    pub threshold_married: i64,
    pub parents: Allowance,
    pub dependent_student: i64,
    pub single_student: i64,
    pub married_student: i64,
    pub single_parent: Allowance,
    pub married_parent: Allowance,
    pub employment_cap: i64,
    pub employment_rate: i64,
    pub parents_rate: i64,
    pub dependent_rate: i64,
    pub no_dependents_rate: i64,
    pub with_dependents_rate: i64,
    pub business: Vec<Bracket>,
    pub age: Vec<AgeRow>,
    pub low_at: i64,
    pub low: i64,
    pub first_rate: i64,
    pub student_rate: i64,
    pub lowest_student: i64,
    pub bracket: Vec<Bracket>,
}

#[derive(Clone, Copy, PartialEq)]
pub enum Formula {
    A,
    B,
    C,
}

#[derive(Clone, Copy, Default)]
pub struct Lines {
    pub total: i64,
    pub tax: i64,
    pub payroll: i64,
    pub protection: i64,
    pub employment: i64,
    pub allowances: i64,
    pub available: i64,
    pub business: i64,
    pub worth: i64,
    pub asset_protection: i64,
    pub discretionary: i64,
    pub from_assets: i64,
    pub adjusted: i64,
    pub contribution: i64,
}

#[derive(Clone, Copy)]
pub struct IndexLines {
    pub formula: Formula,
    pub parent: Lines,
    pub own: Lines,
    pub from_income: i64,
    pub raw: i64,
    pub index: i32,
}

#[derive(Clone, Copy, PartialEq)]
pub enum Way {
    Maximum,
    Calculated,
    Minimum,
    Nothing,
}

pub struct Decision {
    pub way: Way,
    pub scheduled: u32,
    pub sai: i32,
}

pub fn nearest(a: i128, b: i128) -> i128 {
    let size = (2 * a.unsigned_abs() + b.unsigned_abs()) / (2 * b.unsigned_abs());
    if a < 0 { -(size as i128) } else { size as i128 }
}

fn share(amount: i64, rate: i64) -> i64 {
    nearest(amount as i128 * rate as i128, 10000) as i64
}

fn to5(a: i64) -> i64 {
    5 * nearest(a as i128, 5) as i64
}

fn total_income(s: &Side) -> i64 {
    i64::from(s.agi + s.ira + s.interest + s.ira_untaxed + s.pension + s.foreign)
        - i64::from(s.grants + s.credits + s.work_study)
}

fn payroll(b: &Book, married: bool, s: &Side) -> i64 {
    let earned = i64::from(s.earned_first + s.earned_second);
    let threshold = if married { b.threshold_married } else { b.threshold_single };
    share(i64::from(s.earned_first).min(b.oasdi_cap), b.oasdi_rate)
        + share(i64::from(s.earned_second).min(b.oasdi_cap), b.oasdi_rate)
        + share(earned.min(threshold), b.medicare_rate)
        + share((earned - threshold).max(0), b.medicare_high)
}

fn employment(b: &Book, s: &Side) -> i64 {
    b.employment_cap.min(share(i64::from(s.earned_first + s.earned_second), b.employment_rate))
}

fn by_size(first: u8, last: u8, sizes: &[i64], extra: i64, family: u8) -> i64 {
    sizes[family.min(last).saturating_sub(first) as usize]
        + family.saturating_sub(last) as i64 * extra
}

fn value_at(rows: &[Bracket], x: i64) -> Option<i64> {
    let row = rows.iter().rev().copied().find(|row| row.over < x)?;
    Some(row.base + share(x - row.over, row.rate))
}

fn asset_protection(rows: &[AgeRow], married: bool, age: i64) -> i64 {
    match rows.iter().rev().find(|row| row.start <= age) {
        Some(row) if married => row.married,
        Some(row) => row.single,
        None => 0,
    }
}

fn schedule_value(b: &Book, x: i64) -> i64 {
    if x < b.low_at {
        return b.low;
    }
    value_at(&b.bracket, x).unwrap_or_else(|| share(x, b.first_rate))
}

fn income_and_assets(
    b: &Book,
    s: &Side,
    married: bool,
    age: i64,
    protection: i64,
    employment: i64,
    rate: i64,
) -> Lines {
    let total = total_income(s);
    let tax = i64::from(s.tax.max(0));
    let payroll = payroll(b, married, s);
    let allowances = tax + payroll + protection + employment;
    let business = value_at(&b.business, i64::from(s.business)).unwrap_or(0);
    let worth = i64::from(s.support + s.cash + s.investments) + business;
    let asset_protection = asset_protection(&b.age, married, age);
    let discretionary = worth - asset_protection;
    Lines {
        total,
        tax,
        payroll,
        protection,
        employment,
        allowances,
        available: total - allowances,
        business,
        worth,
        asset_protection,
        discretionary,
        from_assets: share(discretionary, rate).max(0),
        adjusted: 0,
        contribution: 0,
    }
}

fn assessed(b: &Book, mut lines: Lines) -> Lines {
    lines.adjusted = lines.available + lines.from_assets;
    lines.contribution = schedule_value(b, lines.adjusted);
    lines
}

fn parents(b: &Book, a: &Application) -> Lines {
    let protection = by_size(2, 6, &b.parents.sizes, b.parents.extra, a.family);
    let working = employment(b, &a.parents);
    let age = i64::from(a.parent_age);
    assessed(
        b,
        income_and_assets(b, &a.parents, a.parents_married, age, protection, working, b.parents_rate),
    )
}

fn dependent(b: &Book, a: &Application, parent: &Lines) -> Lines {
    let s = &a.own;
    let total = total_income(s);
    let tax = i64::from(s.tax.max(0));
    let payroll = payroll(b, false, s);
    let allowances = tax + payroll + b.dependent_student + (-parent.adjusted).max(0);
    let worth = i64::from(s.cash + s.investments + s.business);
    Lines {
        total,
        tax,
        payroll,
        protection: b.dependent_student,
        allowances,
        available: total - allowances,
        worth,
        discretionary: worth,
        from_assets: share(worth, b.dependent_rate),
        ..Lines::default()
    }
}

fn single(b: &Book, a: &Application) -> Lines {
    let protection = if a.married { b.married_student } else { b.single_student };
    let working = if a.married { employment(b, &a.own) } else { 0 };
    let age = i64::from(b.year) - i64::from(a.birth_year);
    income_and_assets(b, &a.own, a.married, age, protection, working, b.no_dependents_rate)
}

fn family(b: &Book, a: &Application) -> Lines {
    let allowance = if a.married { &b.married_parent } else { &b.single_parent };
    let protection = by_size(2, 6, &allowance.sizes, allowance.extra, a.family);
    let age = i64::from(b.year) - i64::from(a.birth_year);
    let working = employment(b, &a.own);
    assessed(
        b,
        income_and_assets(b, &a.own, a.married, age, protection, working, b.with_dependents_rate),
    )
}

pub fn formula_of(b: &Book, a: &Application) -> Formula {
    if !(a.birth_year + 24 <= b.year || a.married || a.graduate || a.veteran || a.dependents) {
        Formula::A
    } else if a.dependents {
        Formula::C
    } else {
        Formula::B
    }
}

#[inline(never)]
pub fn index(b: &Book, a: &Application) -> IndexLines {
    let formula = formula_of(b, a);
    let (parent, own, from_income, raw) = match formula {
        Formula::A => {
            let parent = parents(b, a);
            let own = dependent(b, a, &parent);
            let from_income = share(own.available, b.student_rate).max(b.lowest_student);
            (parent, own, from_income, parent.contribution + from_income + own.from_assets)
        }
        Formula::B => {
            let own = single(b, a);
            let from_income = share(own.available, b.student_rate).max(b.lowest_student);
            (Lines::default(), own, from_income, from_income + own.from_assets)
        }
        Formula::C => {
            let own = family(b, a);
            (Lines::default(), own, 0, own.contribution)
        }
    };
    let index = raw.max(-1500).min(999_999) as i32;
    IndexLines { formula, parent, own, from_income, raw, index }
}

#[inline(never)]
pub fn decide(b: &Book, a: &Application, index: i32) -> Decision {
    let formula = formula_of(b, a);
    if a.graduate || a.bachelor {
        return Decision { way: Way::Nothing, scheduled: 0, sai: index };
    }
    let must_file = if formula == Formula::A { a.parents_file } else { a.student_file };
    if !must_file {
        return Decision { way: Way::Maximum, scheduled: b.maximum as u32, sai: -1500 };
    }
    let agi = i64::from(if formula == Formula::A { a.parents.agi } else { a.own.agi });
    let guideline = by_size(1, 8, &b.poverty, b.poverty_extra, a.family);
    let is_single = match formula {
        Formula::A => !a.parents_married,
        Formula::B => false,
        Formula::C => !a.married,
    };
    if agi > 0 && 100 * agi <= b.percent[if is_single { 0 } else { 1 }] * guideline {
        return Decision { way: Way::Maximum, scheduled: b.maximum as u32, sai: index.min(0) };
    }
    let calculated = to5(b.maximum - i64::from(index.max(0)));
    if calculated >= b.minimum {
        return Decision { way: Way::Calculated, scheduled: calculated as u32, sai: index };
    }
    let percent = b.percent[match formula {
        Formula::A => if a.parents_married { 3 } else { 2 },
        Formula::B => 6,
        Formula::C => if a.married { 5 } else { 4 },
    }];
    if 100 * agi <= percent * guideline {
        return Decision { way: Way::Minimum, scheduled: b.minimum as u32, sai: index };
    }
    Decision { way: Way::Nothing, scheduled: 0, sai: index }
}

pub fn specimen_book() -> Book {
    let bracket = |over, base, rate| Bracket { over, base, rate };
    let age = |start, single, married| AgeRow { start, single, married };
    Book {
        year: 2025,
        maximum: 7395,
        minimum: 740,
        percent: [225, 175, 325, 275, 400, 350, 275],
        poverty: [14580, 19720, 24860, 30000, 35140, 40280, 45420, 50560],
        poverty_extra: 5140,
        oasdi_cap: 168600,
        oasdi_rate: 620,
        medicare_rate: 145,
        medicare_high: 235,
        threshold_single: 200000,
        threshold_married: 250000,
        parents: Allowance { sizes: [28530, 35510, 43870, 51750, 60540], extra: 6840 },
        dependent_student: 11770,
        single_student: 18310,
        married_student: 29350,
        single_parent: Allowance { sizes: [53660, 66800, 82500, 97330, 113840], extra: 12860 },
        married_parent: Allowance { sizes: [42800, 53270, 65810, 77630, 90810], extra: 10260 },
        employment_cap: 4730,
        employment_rate: 3500,
        parents_rate: 1200,
        dependent_rate: 2000,
        no_dependents_rate: 2000,
        with_dependents_rate: 700,
        business: vec![
            bracket(0, 0, 4000),
            bracket(165000, 66000, 5000),
            bracket(490000, 228500, 6000),
            bracket(815000, 423500, 10000),
        ],
        age: vec![age(0, 0, 0), age(26, 500, 800), age(40, 2500, 6000), age(65, 4000, 10000)],
        low_at: -6820,
        low: -1500,
        first_rate: 2200,
        student_rate: 5000,
        lowest_student: -1500,
        bracket: vec![
            bracket(20500, 4510, 2500),
            bracket(25700, 5810, 2900),
            bracket(30900, 7318, 3400),
            bracket(36200, 9120, 4000),
            bracket(41500, 11240, 4700),
        ],
    }
}
