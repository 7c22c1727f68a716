//! The work of main.rattle in plain Rust: vectors of values in an `Rc`, and searches of strings by `str`.
use std::hint::black_box;
use std::rc::Rc;
use std::time::Instant;

#[allow(dead_code)]
#[derive(Clone, PartialEq)]
enum Value {
    Int(i32),
    Obj(i32),
    Str(Rc<Vec<u8>>),
    List(Rc<Vec<Value>>),
}

fn tell(what: &str, many: usize, start: Instant) {
    println!("{what} {many} {}", start.elapsed().as_micros());
}

// A list that nothing else holds is changed in place.
fn changed(list: Rc<Vec<Value>>, change: impl FnOnce(&mut Vec<Value>)) -> Rc<Vec<Value>> {
    let mut elements = Rc::try_unwrap(list).unwrap_or_else(|shared| (*shared).clone());
    change(&mut elements);
    Rc::new(elements)
}

fn time_lists(many: usize) {
    let start = Instant::now();
    let mut list = Rc::new(Vec::new());
    for number in 0..many {
        list = changed(list, |v| v.push(Value::Int(number as i32)));
    }
    tell("listappend", many, start);
    let start = Instant::now();
    for _ in 0..many {
        black_box(black_box(list.clone()).len());
    }
    tell("length", many, start);
    let few = many / 20;
    let mut list = Rc::new(Vec::new());
    for number in 0..few {
        list = changed(list, |v| v.push(Value::Int(number as i32)));
    }
    let start = Instant::now();
    for number in 0..few {
        list = changed(list, |v| v[number] = Value::Int(7));
    }
    tell("listset", few, start);
    black_box(&list);
    let start = Instant::now();
    let mut list = Rc::new(Vec::new());
    for number in 0..few {
        list = changed(list, |v| v.insert(0, Value::Int(number as i32)));
    }
    tell("listinsert", few, start);
    let start = Instant::now();
    for number in 0..few {
        list = changed(list, |v| {
            v.remove(few - number - 1);
        });
    }
    tell("listdelete", few, start);
    let start = Instant::now();
    let mut list = Rc::new(Vec::new());
    for number in 0..few {
        let value = Value::Int(number as i32);
        if !list.contains(&value) {
            list = changed(list, |v| v.push(value));
        }
    }
    tell("setadd", few, start);
    black_box(&list);
}

fn time_texts(many: usize) {
    let text = "The quick ".repeat(many / 10);
    let start = Instant::now();
    black_box(text.to_ascii_lowercase().find(&"quick fox".to_ascii_lowercase()));
    tell("index", many, start);
    let start = Instant::now();
    black_box(text.find("quick fox"));
    tell("index_exact", many, start);
    let start = Instant::now();
    black_box(text.to_ascii_lowercase().rfind(&"quick fox".to_ascii_lowercase()));
    tell("rindex", many, start);
    let letters = "a".repeat(many);
    let long = "a".repeat(many / 2) + "b";
    let start = Instant::now();
    black_box(letters.to_ascii_lowercase().find(&long.to_ascii_lowercase()));
    tell("index_worst", many, start);
    let start = Instant::now();
    let folded = text.to_ascii_lowercase();
    let mut made = String::new();
    let mut last = 0;
    for (start, _) in folded.match_indices("quick") {
        made.push_str(&text[last..start]);
        made.push_str("slow");
        last = start + 5;
    }
    made.push_str(&text[last..]);
    black_box(&made);
    tell("strsub", many, start);
    let start = Instant::now();
    black_box(text.replace("quick", "slow"));
    tell("strsub_exact", many, start);
}

fn main() {
    for many in [100_000, 200_000, 400_000] {
        time_lists(many);
    }
    for many in [200_000, 400_000, 800_000] {
        time_texts(many);
    }
}
