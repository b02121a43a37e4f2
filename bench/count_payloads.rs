//! Reads a journal's file whole, splits it into payloads, and prints how many there are.
use std::{env, fs};

/// The payload behind an open gate, and what stands behind it.
fn split_payload(bytes: &[u8]) -> Option<(&[u8], &[u8])> {
    let (size, rest) = bytes.strip_prefix(&[1])?.split_first_chunk()?;
    rest.split_at_checked(u32::from_le_bytes(*size) as usize)
}

fn main() {
    let path = env::args().nth(1).expect("the path of a journal");
    let file = fs::read(path).expect("a file");
    let mut payloads = Vec::new();
    let mut rest = &file[16..];
    while let Some((payload, behind)) = split_payload(rest) {
        payloads.push(payload);
        rest = behind;
    }
    assert_eq!(rest.first(), Some(&0));
    println!("{}", payloads.len());
}
