//! The calls of main.rattle on plain structs: objects in a `Vec`, each with a row of cells, and lists of children and contents.
use std::rc::Rc;
use std::time::Instant;

struct Cell {
    definer: usize,
    name: Rc<Vec<u8>>,
    owner: i32,
    perms: u8,
    value: Option<i32>,
}

struct Object {
    parent: Option<usize>,
    location: Option<usize>,
    children: Vec<usize>,
    contents: Vec<usize>,
    cells: Vec<Cell>,
}

fn find(object: &Object, name: &[u8]) -> usize {
    object.cells.iter().position(|cell| cell.name.eq_ignore_ascii_case(name)).unwrap()
}

fn create(world: &mut Vec<Object>, parent: Option<usize>) {
    let number = world.len();
    let cells = match parent {
        Some(p) => world[p]
            .cells
            .iter()
            .map(|cell| Cell { definer: cell.definer, name: cell.name.clone(), owner: cell.owner, perms: cell.perms, value: None })
            .collect(),
        None => Vec::new(),
    };
    world.push(Object { parent, location: None, children: Vec::new(), contents: Vec::new(), cells });
    if let Some(p) = parent {
        world[p].children.push(number);
    }
}

fn get(world: &[Object], o: usize, name: &[u8]) -> i32 {
    let mut at = o;
    let definer = world[o].cells[find(&world[o], name)].definer;
    loop {
        let cell = world[at].cells.iter().find(|cell| cell.definer == definer && cell.name.eq_ignore_ascii_case(name)).unwrap();
        match cell.value {
            Some(value) => return value,
            None => at = world[at].parent.unwrap(),
        }
    }
}

fn add(world: &mut Vec<Object>, o: usize, name: &Rc<Vec<u8>>, value: Option<i32>) {
    let own = if value.is_some() { 0 } else { world[o].cells.iter().filter(|cell| cell.definer == o).count() };
    world[o].cells.insert(own, Cell { definer: 0, name: name.clone(), owner: 0, perms: 1, value });
    for child in world[o].children.clone() {
        add(world, child, name, None);
    }
}

fn time(many: usize) {
    let mut world = Vec::new();
    create(&mut world, None);
    for number in 0..50 {
        let name = Rc::new(format!("p{number:02}").into_bytes());
        add(&mut world, 0, &name, Some(7));
    }
    let tell = |what: &str, start: Instant| println!("{what} {many} {}", start.elapsed().as_micros());
    let start = Instant::now();
    for _ in 0..many {
        create(&mut world, Some(0));
    }
    tell("create", start);
    let start = Instant::now();
    let mut sum = 0;
    for o in 1..many {
        sum += get(&world, o, b"p49");
    }
    tell("get", start);
    assert_eq!(sum as usize, 7 * (many - 1));
    let start = Instant::now();
    for o in 1..many {
        let place = find(&world[o], b"p49");
        world[o].cells[place].value = Some(8);
    }
    tell("set", start);
    let start = Instant::now();
    for o in 2..many {
        if let Some(old) = world[o].location {
            world[old].contents.retain(|x| *x != o);
        }
        world[o].location = Some(1);
        world[1].contents.push(o);
    }
    tell("move", start);
    let start = Instant::now();
    for o in 2..many {
        if let Some(old) = world[o].location.take() {
            world[old].contents.retain(|x| *x != o);
        }
    }
    tell("leave", start);
    let start = Instant::now();
    add(&mut world, 0, &Rc::new(b"late".to_vec()), Some(1));
    tell("add_property", start);
}

fn main() {
    for many in [25_000, 50_000, 100_000] {
        time(many);
    }
}
