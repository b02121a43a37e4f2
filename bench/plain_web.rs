//! Files over HTTP as plain Rust programs would. `serve FILE PORT CONNECTIONS` takes so many connections, each in a thread of its
//! own: it parses heads by hand, reads the numbers of a filing of prior use from its body, and appends them to the file by a write,
//! a gate and two syncs, as a journal does, without rules and without proofs. `drive PORT CONNECTIONS REQUESTS` sends so many such
//! filings over so many connections, each request once the one before it was answered, and prints the seconds.
use std::fs::File;
use std::io::{self, Read, Write};
use std::net::{TcpListener, TcpStream};
use std::ops::Range;
use std::os::unix::fs::FileExt;
use std::sync::Mutex;
use std::time::{Duration, Instant};
use std::{env, process, thread};

const PAYLOAD: usize = 25;

/// A connection to the office takes so many requests.
const LIMIT: u64 = 10_000;

/// The file, the place of its closed gate, and how many payloads stand.
struct Journal {
    file: File,
    place: u64,
    count: u64,
}

impl Journal {
    /// Appends a payload, and says how many stood before it.
    fn put(&mut self, payload: &[u8]) -> io::Result<u64> {
        let mut record = (payload.len() as u32).to_le_bytes().to_vec();
        record.extend_from_slice(payload);
        record.push(0);
        self.file.write_all_at(&record, self.place + 1)?;
        self.file.sync_data()?;
        self.file.write_all_at(&[1], self.place)?;
        self.file.sync_data()?;
        self.place += record.len() as u64;
        self.count += 1;
        Ok(self.count - 1)
    }
}

/// The place behind the empty line of a head.
fn head_end(bytes: &[u8]) -> Option<usize> {
    bytes.windows(4).position(|four| four == b"\r\n\r\n").map(|place| place + 4)
}

/// The length of the body by the head's field, where the request files something.
fn length_of(head: &str) -> Option<usize> {
    let mut lines = head.split("\r\n");
    let mut first = lines.next()?.split(' ');
    if (first.next()?, first.next()?, first.next()?) != ("POST", "/desks/0/filings", "HTTP/1.1") {
        return None;
    }
    for line in lines {
        if let Some((name, value)) = line.split_once(':') {
            if name.eq_ignore_ascii_case("content-length") {
                return value.trim().parse().ok();
            }
        }
    }
    None
}

/// The number behind a key of a body.
fn number(body: &str, key: &str) -> Option<u64> {
    let (_, rest) = body.split_once(key)?;
    rest.trim_start_matches([':', ' ']).split(|c: char| !c.is_ascii_digit()).next()?.parse().ok()
}

/// The payload of a body that files prior use.
fn payload_of(body: &str) -> Option<Vec<u8>> {
    if !body.contains("\"kind\":\"prior\"") {
        return None;
    }
    let mut payload = vec![4, 0, 0, 0, 0];
    payload.extend_from_slice(&number(body, "\"number\"")?.to_le_bytes());
    payload.extend_from_slice(&number(body, "\"student\"")?.to_le_bytes());
    payload.extend_from_slice(&(number(body, "\"units\"")? as u32).to_le_bytes());
    Some(payload)
}

/// The next request's head and body, or none where the input ended.
fn next_request(stream: &mut TcpStream, held: &mut Vec<u8>) -> io::Result<Option<Vec<u8>>> {
    let mut piece = [0; 4096];
    loop {
        if let Some(end) = head_end(held) {
            let length = std::str::from_utf8(&held[..end]).ok().and_then(length_of).ok_or(io::ErrorKind::InvalidData)?;
            if held.len() >= end + length {
                let rest = held.split_off(end + length);
                let request = std::mem::replace(held, rest);
                return Ok(Some(request[end..].to_vec()));
            }
        }
        let count = stream.read(&mut piece)?;
        if count == 0 {
            return Ok(None);
        }
        held.extend_from_slice(&piece[..count]);
    }
}

fn answer(stream: &mut TcpStream, journal: &Mutex<Journal>) -> io::Result<()> {
    stream.set_nodelay(true)?;
    let mut held = Vec::new();
    while let Some(body) = next_request(stream, &mut held)? {
        let payload = std::str::from_utf8(&body).ok().and_then(payload_of).ok_or(io::ErrorKind::InvalidData)?;
        assert_eq!(payload.len(), PAYLOAD);
        let front = journal.lock().map_err(|_| io::ErrorKind::Other)?.put(&payload)?;
        let text = format!("{{\"answer\":\"accepted\",\"front\":{front},\"outcome\":\"noted\",\"position\":{}}}", front + 1);
        let head = format!("HTTP/1.1 201 Created\r\nContent-Length: {}\r\nContent-Type: application/json\r\n\r\n", text.len());
        stream.write_all((head + &text).as_bytes())?;
    }
    Ok(())
}

fn serve(path: &str, port: u16, connections: usize) -> io::Result<()> {
    let file = File::create(path)?;
    file.write_all_at(&[0; 17], 0)?;
    let journal = Mutex::new(Journal { file, place: 16, count: 0 });
    let listener = TcpListener::bind(("127.0.0.1", port))?;
    thread::scope(|scope| {
        for _ in 0..connections {
            if let Ok((mut stream, _)) = listener.accept() {
                let journal = &journal;
                scope.spawn(move || answer(&mut stream, journal));
            }
        }
    });
    Ok(())
}

/// A connection to a server that may not have bound its port yet.
fn connect(port: u16) -> io::Result<TcpStream> {
    for _ in 0..500 {
        if let Ok(stream) = TcpStream::connect(("127.0.0.1", port)) {
            stream.set_nodelay(true)?;
            return Ok(stream);
        }
        thread::sleep(Duration::from_millis(20));
    }
    Err(io::ErrorKind::NotConnected.into())
}

/// Sends the filings of these numbers over one connection after another, each of which takes its limit of requests.
fn send_all(port: u16, mut stream: TcpStream, numbers: Range<u64>) -> io::Result<()> {
    let mut first = numbers.start;
    loop {
        let end = numbers.end.min(first + LIMIT);
        send(&mut stream, first..end)?;
        if end == numbers.end {
            return Ok(());
        }
        first = end;
        stream = connect(port)?;
    }
}

/// Sends the filings of these numbers, each once the one before it was accepted.
fn send(stream: &mut TcpStream, numbers: Range<u64>) -> io::Result<()> {
    let mut held = Vec::new();
    let mut piece = [0; 4096];
    for number in numbers {
        let body = format!("{{\"kind\":\"prior\",\"number\":{number},\"student\":{number},\"units\":1000}}");
        let head = format!("POST /desks/0/filings HTTP/1.1\r\nHost: 127.0.0.1\r\nContent-Type: application/json\r\nContent-Length: {}\r\n\r\n", body.len());
        stream.write_all((head + &body).as_bytes())?;
        held.clear();
        loop {
            let count = stream.read(&mut piece)?;
            held.extend_from_slice(&piece[..count]);
            if count == 0 || held.ends_with(b"}") {
                break;
            }
        }
        // The head of a Python server has lines of its own in front.
        assert!(held.starts_with(b"HTTP/1.1 201 "), "{}", String::from_utf8_lossy(&held));
    }
    Ok(())
}

fn drive(port: u16, connections: u64, requests: u64) -> io::Result<()> {
    let streams = (0..connections).map(|_| connect(port)).collect::<io::Result<Vec<_>>>()?;
    let begun = Instant::now();
    thread::scope(|scope| {
        for (place, stream) in (0..).zip(streams) {
            let numbers = 1 + place * requests / connections..1 + (place + 1) * requests / connections;
            scope.spawn(move || send_all(port, stream, numbers).expect("each filing is answered"));
        }
    });
    println!("{}", begun.elapsed().as_secs_f64());
    Ok(())
}

fn main() -> io::Result<()> {
    let words: Vec<String> = env::args().skip(1).collect();
    let number = |place: usize| words.get(place).and_then(|word| word.parse::<u64>().ok()).unwrap_or(0);
    match words.first().map(String::as_str) {
        Some("serve") => serve(&words[1], number(2) as u16, number(3) as usize),
        Some("drive") => drive(number(1) as u16, number(2), number(3)),
        _ => {
            eprintln!("usage: plain_web serve FILE PORT CONNECTIONS | drive PORT CONNECTIONS REQUESTS");
            process::exit(2);
        }
    }
}
