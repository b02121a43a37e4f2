// Need and award in plain Rust, on the same applications as crate office_bench.

#[path = "plain/arithmetic.rs"]
mod arithmetic;

use arithmetic::{Application, Side, decide, index, specimen_book};

struct Sequence(u64);

impl Sequence {
    fn below(&mut self, bound: u64) -> u64 {
        self.0 = self
            .0
            .wrapping_mul(6_364_136_223_846_793_005)
            .wrapping_add(1_442_695_040_888_963_407);
        (self.0 >> 33) % bound
    }

    fn flag(&mut self) -> bool {
        self.below(8) == 0
    }

    fn side(&mut self) -> Side {
        let agi = self.below(120_000) as i32;
        let untaxed = self.below(2000) as i32;
        let offsets = self.below(1000) as i32;
        let tax = self.below(15_000) as i32;
        let earned = self.below(100_000) as i32;
        let assets = self.below(60_000) as i32;
        let business = self.below(900_000) as i32;
        Side {
            agi,
            ira: untaxed,
            interest: 0,
            ira_untaxed: untaxed,
            pension: 0,
            foreign: 0,
            grants: offsets,
            credits: offsets,
            work_study: 0,
            tax,
            earned_first: earned,
            earned_second: untaxed,
            support: untaxed,
            cash: assets,
            investments: assets,
            business,
        }
    }

    fn application(&mut self) -> Application {
        let own = self.side();
        let parents = self.side();
        Application {
            birth_year: 1970 + self.below(45) as u16,
            family: 1 + self.below(9) as u8,
            married: self.flag(),
            graduate: false,
            bachelor: self.flag(),
            veteran: self.flag(),
            dependents: self.flag(),
            student_file: !self.flag(),
            own,
            parents_married: !self.flag(),
            parents_file: !self.flag(),
            parent_age: 30 + self.below(60) as u8,
            parents,
        }
    }
}

fn main() {
    let book = specimen_book();
    let mut sequence = Sequence(1);
    let applications: Vec<Application> = (0..1000).map(|_| sequence.application()).collect();
    let mut total: u64 = 0;
    for _ in 0..1000 {
        for a in std::hint::black_box(&applications) {
            let lines = std::hint::black_box(index(&book, a));
            let decision = decide(&book, a, lines.index);
            let _way = std::hint::black_box(decision.way);
            total = total
                .wrapping_add(u64::from(decision.scheduled))
                .wrapping_add(u64::from(decision.sai.unsigned_abs()));
        }
    }
    println!("{total}");
}
