// The accepted filings of crate office_bench as rows of tables in SQLite, in memory, by its C library: a table a kind, with an
// index for each of the office's questions beside that of the key, and no rule. Each filing is looked up by its key and inserted, in a
// transaction of its own, as a filing stands once it is admitted; each quote looks up a payment of the student's in the term.
// All of them are filed into as many such bases as are wanted, one after the other. Prints how many asks a base had, how many
// look-ups found a row in all, and the nanoseconds of the processor that all of them took, with tables made and statements
// prepared before.
//
// usage: sqlite_office students|kinds|one|priors FILINGS BASES

mod plain;
mod sqlite;

use plain::desk::PlainDesk;
use plain::filings::{self, Filing, What};
use plain::office::Place;
use plain::orders::{self, Desk};
use sqlite::{Base, Statement};

const ROOM: u32 = 1_000_000;
const FIELDS_OF_APPLICATION: usize = 43;

// A kind's table: its name, its columns behind the key, and the columns of an index for each question about it.
const TABLES: [(&str, &str, &[&str]); 10] = [
    ("book", "year", &["year"]),
    ("school", "code, terms, full", &["code"]),
    ("calendar", "year, term, extra, first, last", &["school, year, term"]),
    ("prior", "student, units", &["student"]),
    ("apply", "student, year, transaction_number", &["student, year"]),
    ("enrol", "student, year, term, credits", &["student, school, year, term"]),
    ("originate", "student, year, cost", &["student, school, year"]),
    ("pay", "student, year, term, program, cents", &NETS),
    (
        "withdraw",
        "student, year, term, last, determined, charges, unsub, sub, plus, pell, fseog, teach",
        &["student, school, year, term", "student, year"],
    ),
    ("adjust", "student, year, term, program, cents", &NETS),
];
// The nets of a school's year and of a term by program, and those of a student's year at all schools.
const NETS: [&str; 2] = ["student, school, year, term, program", "student, year, program"];
const APPLY: usize = 4;

// An ask as numbers: a filing of a kind with its columns, or the place of a quote.
enum Ask {
    File { kind: usize, columns: Vec<i64> },
    Quote([i64; 4]),
}

// A desk that notes what is asked of it and admitted.
#[derive(Default)]
struct Notes {
    desk: PlainDesk,
    asks: Vec<Ask>,
}

impl Desk for Notes {
    fn file(&mut self, filing: Filing) {
        let (kind, columns) = columns_of(&filing);
        let accepted = self.desk.accepted;
        self.desk.file(filing);
        if accepted < self.desk.accepted {
            self.asks.push(Ask::File { kind, columns });
        }
    }

    fn quote(&mut self, place: &Place) -> u64 {
        let Place { student, school, year, term } = *place;
        self.asks.push(Ask::Quote([student as i64, school.into(), year.into(), term.into()]));
        self.desk.quote(place)
    }

    fn filings(&self) -> u32 {
        self.desk.filings()
    }
}

// A filing's kind and its columns, those of its key first.
fn columns_of(filing: &Filing) -> (usize, Vec<i64>) {
    let mut columns = vec![filing.key.school as i64, filing.key.number as i64];
    let (kind, rest): (usize, Vec<i64>) = match &filing.what {
        What::Book(book) => (0, vec![book.year.into()]),
        What::School(s) => (1, vec![s.code.into(), s.terms.into(), s.full.into()]),
        What::Calendar(c) => {
            (2, vec![c.year.into(), c.term.into(), c.extra.into(), c.first.into(), c.last.into()])
        }
        What::Prior(p) => (3, vec![p.student as i64, p.units.into()]),
        What::Apply(a) => (APPLY, fields_of(a)),
        What::Enrol(e) => (5, vec![e.student as i64, e.year.into(), e.term.into(), e.credits.into()]),
        What::Originate(o) => (6, vec![o.student as i64, o.year.into(), o.cost.into()]),
        What::Pay(a) => (7, amount(a)),
        What::Withdraw(w) => {
            let place = [w.student as i64, w.year.into(), w.term.into()];
            let days = [w.last.into(), w.determined.into(), w.charges as i64];
            (8, [place, days].concat().into_iter().chain(w.could.map(|cents| cents as i64)).collect())
        }
        What::Adjust(a) => (9, amount(a)),
    };
    columns.extend(rest);
    (kind, columns)
}

fn amount(a: &filings::Amount) -> Vec<i64> {
    vec![a.student as i64, a.year.into(), a.term.into(), a.program as i64, a.cents as i64]
}

fn fields_of(apply: &filings::Apply) -> Vec<i64> {
    let a = &apply.application;
    let mut fields = vec![apply.student as i64, apply.year.into(), apply.transaction.into()];
    fields.extend([i64::from(a.birth_year), a.family.into(), a.parent_age.into()]);
    let answers = [
        a.married, a.graduate, a.bachelor, a.veteran, a.dependents, a.student_file, a.parents_married, a.parents_file,
    ];
    fields.extend(answers.map(i64::from));
    for s in [&a.own, &a.parents] {
        let amounts = [
            s.agi, s.ira, s.interest, s.ira_untaxed, s.pension, s.foreign, s.grants, s.credits, s.work_study, s.tax,
            s.earned_first, s.earned_second, s.support, s.cash, s.investments, s.business,
        ];
        fields.extend(amounts.map(i64::from));
    }
    fields
}

// The statements that look up and insert a row of a kind.
fn table(base: &Base, kind: usize) -> (Statement, Statement) {
    let (name, named, indexed) = TABLES[kind];
    let mut columns = named.to_string();
    if kind == APPLY {
        columns.extend((1..=FIELDS_OF_APPLICATION).map(|field| format!(", field_{field}")));
    }
    base.run(&format!("CREATE TABLE {name} (school, number, {columns}, PRIMARY KEY (school, number)) WITHOUT ROWID"));
    for (number, columns) in indexed.iter().enumerate() {
        base.run(&format!("CREATE INDEX {name}_by_{number} ON {name} ({columns})"));
    }
    let places = ", ?".repeat(columns.split(',').count());
    let look_up = base.prepare(&format!("SELECT number FROM {name} WHERE school = ? AND number = ?"));
    let insert = base.prepare(&format!("INSERT INTO {name} VALUES (?, ?{places})"));
    (look_up, insert)
}

// The nanoseconds of the processor that this program took so far.
fn processor() -> i64 {
    const PROCESS: i32 = 2;
    unsafe extern "C" {
        fn clock_gettime(clock: i32, time: *mut [i64; 2]) -> i32;
    }
    let mut time = [0; 2];
    let status = unsafe { clock_gettime(PROCESS, &mut time) };
    assert_eq!(status, 0, "no clock of the processor");
    time[0] * 1_000_000_000 + time[1]
}

fn main() {
    let words: Vec<String> = std::env::args().skip(1).collect();
    let mut notes = Notes::default();
    notes.desk.reserve(ROOM);
    assert!(orders::file(&mut notes, &words[0], words[1].parse().unwrap()), "an order of filings");
    let (mut found, mut taken) = (0, 0);
    for _ in 0..words[2].parse().expect("a number of bases") {
        let (more_found, more_taken) = file(&notes.asks);
        found += more_found;
        taken += more_taken;
    }
    println!("asks {}\nfound {found}\nnanoseconds {taken}", notes.asks.len());
}

// Files into a base of its own: how many look-ups found a row, and the nanoseconds of the processor.
fn file(asks: &[Ask]) -> (u64, i64) {
    let base = Base::in_memory();
    let tables: Vec<(Statement, Statement)> = (0..TABLES.len()).map(|kind| table(&base, kind)).collect();
    let place = "student = ? AND school = ? AND year = ? AND term = ?";
    // Without statistics the planner would take the key's index, and go over all of a school.
    let paid = base.prepare(&format!("SELECT cents FROM pay INDEXED BY pay_by_0 WHERE {place} LIMIT 1"));
    let begun = processor();
    let mut found = 0;
    for ask in asks {
        match ask {
            Ask::Quote(place) => found += u64::from(paid.step(place).is_some()),
            Ask::File { kind, columns } => {
                let (look_up, insert) = &tables[*kind];
                found += u64::from(look_up.step(&columns[..2]).is_some());
                insert.step(columns);
            }
        }
    }
    (found, processor() - begun)
}
