//! A plain reader of a database's lines: each is a number or a string of its own, whose bytes are looked at. It knows nothing of objects, lists,
//! programs and limits, and keeps all lines until the end, as `moo check` keeps the world.
use std::hint::black_box;
use std::io::{self, Read};

#[allow(dead_code)]
enum Line {
    Number(i32),
    Text(Box<[u8]>),
}

fn number(line: &[u8]) -> Option<i32> {
    let digits = line.strip_prefix(b"-").unwrap_or(line);
    if digits.is_empty() || digits.len() > 10 || !digits.iter().all(u8::is_ascii_digit) {
        return None;
    }
    std::str::from_utf8(line).ok()?.parse().ok()
}

fn is_text(line: &[u8]) -> bool {
    line.iter().fold(true, |all, byte| all & (*byte == b'\t' || (b' '..=b'~').contains(byte)))
}

fn main() -> io::Result<()> {
    let path = std::env::args().nth(1).expect("a file");
    let mut text = Vec::new();
    std::fs::File::open(path)?.read_to_end(&mut text)?;
    let mut lines = Vec::new();
    for line in text.split(|byte| *byte == b'\n') {
        if let Some(number) = number(line) {
            lines.push(Line::Number(number));
        } else if is_text(line) {
            lines.push(Line::Text(line.into()));
        } else {
            return Err(io::ErrorKind::InvalidData.into());
        }
    }
    println!("{} lines", black_box(&lines).len());
    Ok(())
}
