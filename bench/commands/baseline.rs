//! The work of main.rattle in plain Rust: objects as structs with `String` and `Vec`, a line as a slice of bytes.
use std::hint::black_box;
use std::time::Instant;

struct Thing {
    name: String,
    aliases: Vec<String>,
}

const FORMS: [(i32, &[&str]); 28] = [
    (2, &["in", "front", "of"]), (4, &["on", "top", "of"]), (5, &["out", "of"]), (5, &["from", "inside"]), (14, &["off", "of"]),
    (0, &["with"]), (0, &["using"]), (1, &["at"]), (1, &["to"]), (3, &["in"]), (3, &["inside"]), (3, &["into"]), (4, &["on"]),
    (4, &["onto"]), (4, &["upon"]), (5, &["from"]), (6, &["over"]), (7, &["through"]), (8, &["under"]), (8, &["underneath"]),
    (8, &["beneath"]), (9, &["behind"]), (10, &["beside"]), (11, &["for"]), (11, &["about"]), (12, &["is"]), (13, &["as"]),
    (14, &["off"]),
];

fn tell(what: &str, many: usize, start: Instant) {
    println!("{what} {many} {}", start.elapsed().as_micros());
}

fn room(many: usize) -> Vec<Thing> {
    (0..many)
        .map(|number| Thing {
            name: format!("a thing in the room {number:05}"),
            aliases: (0..10).map(|alias| format!("an alias of the thing {:05}", (number / 2 + alias * 5_003) % 100_000)).collect(),
        })
        .collect()
}

fn line() -> String {
    format!("verb00099 {}in front of {}", "an \"a\" ".repeat(1_022), "b".repeat(1_016))
}

fn words(line: &str) -> Vec<String> {
    let mut words = Vec::new();
    let mut word = None::<String>;
    let mut grouped = false;
    let mut chars = line.chars();
    while let Some(c) = chars.next() {
        match c {
            ' ' if !grouped => words.extend(word.take()),
            '"' => {
                grouped = !grouped;
                word.get_or_insert_with(String::new);
            }
            '\\' => word.get_or_insert_with(String::new).extend(chars.next()),
            _ => word.get_or_insert_with(String::new).push(c),
        }
    }
    words.extend(word);
    words
}

fn is_begun(name: &str, text: &str) -> bool {
    name.len() >= text.len() && name.as_bytes()[..text.len()].eq_ignore_ascii_case(text.as_bytes())
}

fn match_object(room: &[Thing], text: &str) -> i32 {
    let sole = |test: &dyn Fn(&str) -> bool| {
        let mut found = room.iter().enumerate().filter(|(_, thing)| test(&thing.name) || thing.aliases.iter().any(|alias| test(alias)));
        match (found.next(), found.next()) {
            (None, _) => -3,
            (Some((number, _)), None) => number as i32 + 3,
            _ => -2,
        }
    };
    if text.is_empty() {
        return -1;
    }
    match sole(&|name| name.eq_ignore_ascii_case(text)) {
        -3 => sole(&|name| is_begun(name, text)),
        found => found,
    }
}

fn preposition(words: &[String]) -> Option<(usize, i32, usize)> {
    (0..words.len()).find_map(|at| {
        FORMS.iter().find_map(|(number, form)| {
            let begins = words.len() - at >= form.len() && form.iter().zip(&words[at..]).all(|(own, word)| own.eq_ignore_ascii_case(word));
            begins.then_some((at, *number, at + form.len()))
        })
    })
}

fn parse(room: &[Thing], line: &str) -> (Vec<String>, i32, i32, i32) {
    let words = words(line);
    let args = &words[1..];
    let (at, number, behind) = preposition(args).unwrap_or((args.len(), -1, args.len()));
    let (direct, between, indirect) = (args[..at].join(" "), args[at..behind].join(" "), args[behind..].join(" "));
    black_box(between);
    let found = (match_object(room, &direct), match_object(room, &indirect));
    (words, found.0, number, found.1)
}

// A pattern with one star in its middle.
fn fits(pattern: &str, name: &str) -> bool {
    let (least, optional) = pattern.split_once('*').unwrap_or((pattern, ""));
    name.len() >= least.len() && is_begun(name, least) && is_begun(optional, &name[least.len()..])
}

fn main() {
    let verbs: Vec<String> = (0..100).map(|number| format!("verb*{number:05}")).collect();
    for many in [2_500, 5_000, 10_000] {
        let room = room(many);
        let line = line();
        let start = Instant::now();
        black_box(words(black_box(&line)));
        tell("words", many, start);
        let start = Instant::now();
        let command = black_box(parse(&room, black_box(&line)));
        tell("parse_command", many, start);
        let start = Instant::now();
        black_box(match_object(&room, black_box("a thing in the room 00007")));
        tell("match_whole", many, start);
        let start = Instant::now();
        black_box(match_object(&room, black_box("AN ALIAS OF THE THING 0")));
        tell("match_begun", many, start);
        let start = Instant::now();
        black_box(verbs.iter().position(|pattern| fits(pattern, &command.0[0])));
        tell("choose_verb", many, start);
    }
}
