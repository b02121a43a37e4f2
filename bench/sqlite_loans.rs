// The rows of a loan desk in SQLite, in memory, by its C library: a table a kind with an index for each question of the rules. Each
// row is looked up by its key; a loan and a cancellation find the record in force, the limits of its year, the last record and what was
// borrowed before, and sum the loans of the student in the year and in all years; then the row is inserted, in a transaction of its own.
// No rule is judged. Prints how many rows it took, the sums' total, and the nanoseconds of the processor that the statements took, with
// tables made and statements prepared before, and rows read.
//
// usage: sqlite_loans ROWS

mod sqlite;

use sqlite::{Base, Statement};
use std::time::Instant;

const TABLES: [(&str, usize, &str); 5] = [
    ("limits", 17, "CREATE INDEX limits_year ON limits (c0)"),
    ("borrower", 7, "CREATE INDEX borrower_year ON borrower (c0, c1, c2); CREATE INDEX borrower_last ON borrower (c0, position)"),
    ("before", 3, "CREATE INDEX before_student ON \"before\" (c0)"),
    ("lend", 4, ""),
    ("cancel", 4, ""),
];

// A kind's place in the table, and its columns with those of its key first.
struct Row {
    kind: usize,
    columns: Vec<i64>,
}

fn number(text: &str) -> i64 {
    match text {
        "unsub" => 0,
        "sub" => 1,
        _ => text.replace('.', "").parse().unwrap(),
    }
}

fn rows_of(text: &str) -> Vec<Row> {
    let row = |line: &str| {
        let mut words = line.split(',');
        let name = words.next().unwrap();
        let kind = TABLES.iter().position(|(table, _, _)| *table == name).unwrap();
        Row { kind, columns: words.map(number).collect() }
    };
    text.lines().map(row).collect()
}

struct Statements {
    begin: Statement,
    commit: Statement,
    key: Statement,
    add_key: Statement,
    inserts: Vec<Statement>,
    limits: Statement,
    record: Statement,
    last: Statement,
    before: Statement,
    year: Statement,
    all: Statement,
    moved: Statement,
}

fn prepared(base: &Base) -> Statements {
    base.run("CREATE TABLE keys (school INTEGER, number INTEGER, position INTEGER, PRIMARY KEY (school, number)) WITHOUT ROWID");
    base.run("CREATE TABLE moved (student INTEGER, year INTEGER, program INTEGER, cents INTEGER)");
    base.run("CREATE INDEX moved_year ON moved (student, year, program, cents)");
    let mut inserts = Vec::new();
    for (name, count, indexes) in TABLES {
        let columns: Vec<String> = (0..count).map(|place| format!("c{place} INTEGER")).collect();
        base.run(&format!("CREATE TABLE \"{name}\" (position INTEGER PRIMARY KEY, school INTEGER, number INTEGER, {})", columns.join(", ")));
        base.run(indexes);
        let marks = vec!["?"; count + 3].join(", ");
        inserts.push(base.prepare(&format!("INSERT INTO \"{name}\" VALUES ({marks})")));
    }
    Statements {
        begin: base.prepare("BEGIN"),
        commit: base.prepare("COMMIT"),
        key: base.prepare("SELECT position FROM keys WHERE school = ? AND number = ?"),
        add_key: base.prepare("INSERT INTO keys VALUES (?, ?, ?)"),
        inserts,
        limits: base.prepare("SELECT position FROM limits WHERE c0 = ?"),
        record: base.prepare("SELECT position FROM borrower WHERE c0 = ? AND c1 = ? ORDER BY c2 DESC LIMIT 1"),
        last: base.prepare("SELECT position FROM borrower WHERE c0 = ? ORDER BY position DESC LIMIT 1"),
        before: base.prepare("SELECT position FROM \"before\" WHERE c0 = ?"),
        year: base.prepare("SELECT total(cents) FROM moved WHERE student = ? AND year = ?"),
        all: base.prepare("SELECT total(cents) FROM moved WHERE student = ?"),
        moved: base.prepare("INSERT INTO moved VALUES (?, ?, ?, ?)"),
    }
}

fn file(statements: &Statements, row: &Row, position: i64) -> i64 {
    let (key, facts) = row.columns.split_at(2);
    statements.begin.step(&[]);
    statements.key.step(key);
    let mut sum = 0;
    match row.kind {
        0 => sum += statements.limits.step(&facts[..1]).unwrap_or(0),
        1 | 2 => {
            sum += statements.before.step(&facts[..1]).unwrap_or(0);
            sum += statements.all.step(&facts[..1]).unwrap_or(0);
            if row.kind == 1 {
                statements.limits.step(&facts[1..2]);
                statements.record.step(&facts[..2]);
                sum += statements.year.step(&facts[..2]).unwrap_or(0);
            }
        }
        _ => {
            statements.record.step(&facts[..2]);
            statements.limits.step(&facts[1..2]);
            statements.last.step(&facts[..1]);
            statements.before.step(&facts[..1]);
            sum += statements.year.step(&facts[..2]).unwrap_or(0) + statements.all.step(&facts[..1]).unwrap_or(0);
            let cents = if row.kind == 3 { facts[3] } else { -facts[3] };
            statements.moved.step(&[facts[0], facts[1], facts[2], cents]);
        }
    }
    statements.add_key.step(&[key[0], key[1], position]);
    let mut all = vec![position];
    all.extend_from_slice(&row.columns);
    statements.inserts[row.kind].step(&all);
    statements.commit.step(&[]);
    sum
}

fn main() {
    let path = std::env::args().nth(1).expect("usage: sqlite_loans ROWS");
    let rows = rows_of(&std::fs::read_to_string(path).unwrap());
    let base = Base::in_memory();
    let statements = prepared(&base);
    let start = Instant::now();
    let sum: i64 = rows.iter().zip(1..).map(|(row, position)| file(&statements, row, position)).sum();
    println!("rows {}\nsum {sum}\nnanoseconds {}", rows.len(), start.elapsed().as_nanos());
}
