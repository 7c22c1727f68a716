//! A plain tokenizer, byte by byte, over the same text: each token with its line, names and strings copied.
use std::time::Instant;

/// The number of copies of the lines that have 1,000,000 bytes.
const COPIES: usize = 2578;

const TURNS: u32 = 5;

const LINES: [&str; 8] = [
    "if (caller != this && !(caller_perms() in {#2, this.owner}))",
    "  return E_PERM; /* not for you */",
    "elseif ((found = index(args[1], \"exit\")) > 0)",
    "  {name, ?count = 1, @rest} = args;",
    "  player:tell(\"You see \", tostr(count * 2 - 1), \" of \", name, \" in \", $string_utils:nn(this.location), \".\");",
    "else",
    "  x = `this.contents[1..length(rest)] ! E_RANGE, E_TYPE => {}'; return x ? x[$] | -a ^ 2;",
    "endif",
];

enum Token {
    Integer(i32),
    Object(i32),
    Str(Vec<u8>),
    Name(Vec<u8>),
    Keyword(usize),
    Error(usize),
    Sign(u8, u8),
}

const KEYWORDS: [&str; 19] = [
    "if", "else", "elseif", "endif", "for", "in", "endfor", "fork", "endfork", "while", "endwhile", "return", "try",
    "endtry", "except", "finally", "any", "break", "continue",
];

const ERRORS: [&str; 16] = [
    "E_NONE", "E_TYPE", "E_DIV", "E_PERM", "E_PROPNF", "E_VERBNF", "E_VARNF", "E_INVIND", "E_RECMOVE", "E_MAXREC",
    "E_RANGE", "E_ARGS", "E_NACC", "E_INVARG", "E_QUOTA", "E_FLOAT",
];

fn word(bytes: &[u8]) -> Token {
    let fits = |name: &&str| name.as_bytes().eq_ignore_ascii_case(bytes);
    if let Some(at) = KEYWORDS.iter().position(fits) {
        return Token::Keyword(at);
    }
    match ERRORS.iter().position(fits) {
        Some(at) => Token::Error(at),
        None => Token::Name(bytes.to_vec()),
    }
}

fn number(line: &[u8], at: &mut usize) -> i32 {
    let mut value: i32 = 0;
    while *at < line.len() && line[*at].is_ascii_digit() {
        value = value.wrapping_mul(10).wrapping_add(i32::from(line[*at] - b'0'));
        *at += 1;
    }
    value
}

fn string(line: &[u8], at: &mut usize) -> Vec<u8> {
    let mut text = Vec::new();
    *at += 1;
    while *at < line.len() && line[*at] != b'"' {
        if line[*at] == b'\\' {
            *at += 1;
        }
        text.push(line[*at]);
        *at += 1;
    }
    *at += 1;
    text
}

fn tokens(lines: &[String]) -> Vec<(Token, usize)> {
    let mut found = Vec::new();
    let mut commented = false;
    for (row, line) in lines.iter().enumerate() {
        let line = line.as_bytes();
        let mut at = 0;
        while at < line.len() {
            let next = line.get(at + 1).copied().unwrap_or(0);
            if commented {
                commented = !(line[at] == b'*' && next == b'/');
                at += if commented { 1 } else { 2 };
                continue;
            }
            let token = match line[at] {
                b' ' | b'\t' => {
                    at += 1;
                    continue;
                }
                b'/' if next == b'*' => {
                    commented = true;
                    at += 2;
                    continue;
                }
                b'0'..=b'9' => Token::Integer(number(line, &mut at)),
                b'#' => {
                    at += 1;
                    Token::Object(number(line, &mut at))
                }
                b'"' => Token::Str(string(line, &mut at)),
                b'a'..=b'z' | b'A'..=b'Z' | b'_' => {
                    let start = at;
                    while at < line.len() && (line[at].is_ascii_alphanumeric() || line[at] == b'_') {
                        at += 1;
                    }
                    word(&line[start..at])
                }
                sign => {
                    let two = matches!(
                        (sign, next),
                        (b'=' | b'!' | b'<' | b'>', b'=') | (b'=', b'>') | (b'&', b'&') | (b'|', b'|') | (b'.', b'.')
                    );
                    at += if two { 2 } else { 1 };
                    Token::Sign(sign, if two { next } else { 0 })
                }
            };
            found.push((token, row + 1));
        }
    }
    found
}

fn main() {
    let mut lines = Vec::new();
    let mut bytes = 0;
    for _ in 0..COPIES {
        for line in LINES {
            lines.push(line.to_string());
            bytes += line.len() + 1;
        }
    }
    for _ in 0..TURNS {
        let start = Instant::now();
        let found = tokens(&lines);
        let spent = start.elapsed().as_micros();
        let weight: usize = found
            .iter()
            .map(|(token, line)| match token {
                Token::Integer(n) | Token::Object(n) => *n as usize & 1,
                Token::Str(text) | Token::Name(text) => text.len(),
                Token::Keyword(n) | Token::Error(n) => *n,
                Token::Sign(a, b) => usize::from(*a ^ *b),
            } ^ line)
            .fold(0, |sum, n| sum ^ n);
        println!("plain {bytes} {spent}");
        assert!(weight < usize::MAX);
    }
}
