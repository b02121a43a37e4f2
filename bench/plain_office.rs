// The office over ordered maps in plain Rust, and the filings of crate office_bench: prints what that program prints, and keeps all
// its offices until then, as that program does.
//
// usage: plain_office students|kinds|one|priors FILINGS OFFICES

mod plain;

use plain::desk::PlainDesk;
use plain::orders;

fn main() {
    let words: Vec<String> = std::env::args().skip(1).collect();
    let filings = words[1].parse().expect("a number of filings");
    let offices = words[2].parse().expect("a number of offices");
    let mut desks: Vec<PlainDesk> = Vec::new();
    for _ in 0..offices {
        let mut desk = PlainDesk::default();
        desk.reserve(filings);
        assert!(orders::file(&mut desk, &words[0], filings), "an order of filings");
        desks.push(desk);
    }
    if let Some(last) = desks.last() {
        print!("{last}");
    }
}
