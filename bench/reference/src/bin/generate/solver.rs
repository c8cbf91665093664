//! Finds closed tables: begins with the start shape and adds what is missing.

use crate::document::{Drawn, Row};
use reference::abstraction::{Abstraction, Untimed};
use reference::model::{Action, Model};
use reference::regions::{Region, Regions};
use reference::table::Entry;
use std::collections::HashMap;

/// By what an entry came into the table.
#[derive(Clone, Copy, PartialEq, Eq)]
pub enum Origin {
    Start,
    Time,
    Rule,
    Push,
    Pop,
}

#[derive(Clone)]
pub struct Solved {
    pub rows: Vec<Row>,
    pub origins: Vec<Origin>,
    /// False if the table would have become too long.
    pub closed: bool,
}

struct Solver<'a, A: Abstraction> {
    model: &'a Model,
    abstraction: &'a A,
    most: usize,
    entries: Vec<Entry<A::Shape>>,
    origins: Vec<Origin>,
    places: HashMap<Entry<A::Shape>, usize>,
    roots: HashMap<(u64, u64, A::Shape), usize>,
    /// By root: the entries that open it, and those of it that are done.
    openers: HashMap<usize, Vec<usize>>,
    members: HashMap<usize, Vec<usize>>,
}

impl<A: Abstraction> Solver<'_, A> {
    fn add(&mut self, entry: Entry<A::Shape>, origin: Origin) {
        if !self.places.contains_key(&entry) {
            self.places.insert(entry, self.entries.len());
            self.entries.push(entry);
            self.origins.push(origin);
        }
    }

    fn root(&mut self, state: u64, label: u64, shape: A::Shape, origin: Origin) -> usize {
        if let Some(&place) = self.roots.get(&(state, label, shape)) {
            return place;
        }
        let place = self.entries.len();
        self.roots.insert((state, label, shape), place);
        self.add(Entry { root: place as u64, state, label, shape }, origin);
        place
    }

    fn add_all(
        &mut self,
        entry: Entry<A::Shape>,
        state: u64,
        shapes: Vec<A::Shape>,
        origin: Origin,
    ) {
        for shape in shapes {
            self.add(Entry { state, shape, ..entry }, origin);
        }
    }

    /// Adds what follows from the entry at a place and those before it.
    fn process(&mut self, place: usize) {
        let entry = self.entries[place];
        let mut shapes = Vec::new();
        self.abstraction.time(&entry.shape, &mut shapes);
        self.add_all(entry, entry.state, shapes, Origin::Time);
        for rule in self.model.rules.iter().filter(|rule| rule.from == entry.state) {
            let (shape, mut list) = (&entry.shape, Vec::new());
            match rule.action {
                Action::Move => list.push(*shape),
                Action::Test(clock) => {
                    self.abstraction.test(shape, clock, &rule.interval, &mut list)
                }
                Action::Assign(clock) => {
                    self.abstraction.assign(shape, clock, &rule.interval, &mut list)
                }
                Action::Push(label) => {
                    self.abstraction.push(shape, &rule.interval, &mut list);
                    self.open(place, rule.to, label, list);
                    continue;
                }
                Action::Pop(_) => continue,
            }
            self.add_all(entry, rule.to, list, Origin::Rule);
        }
        self.settle(place);
    }

    fn open(&mut self, place: usize, state: u64, label: u64, shapes: Vec<A::Shape>) {
        for shape in shapes {
            let root = self.root(state, label, shape, Origin::Push);
            let openers = self.openers.entry(root).or_default();
            if openers.contains(&place) {
                continue;
            }
            openers.push(place);
            for above in self.members.get(&root).cloned().unwrap_or_default() {
                self.pop(place, above);
            }
        }
    }

    /// The entry is done: it returns to all that open its root.
    fn settle(&mut self, place: usize) {
        let root = self.entries[place].root as usize;
        self.members.entry(root).or_default().push(place);
        for below in self.openers.get(&root).cloned().unwrap_or_default() {
            self.pop(below, place);
        }
    }

    fn pop(&mut self, below: usize, above: usize) {
        if self.entries.len() > self.most {
            return;
        }
        let (lower, upper) = (self.entries[below], self.entries[above]);
        for rule in self.model.rules.iter() {
            if rule.from == upper.state && rule.action == Action::Pop(upper.label) {
                let mut list = Vec::new();
                self.abstraction.pop(&lower.shape, &upper.shape, &rule.interval, &mut list);
                self.add_all(lower, rule.to, list, Origin::Pop);
            }
        }
    }
}

/// The least closed table, or its first `most` entries.
fn saturate<A: Abstraction>(
    model: &Model,
    abstraction: &A,
    most: usize,
    numbers: impl Fn(&A::Shape) -> Row,
) -> Solved {
    let mut solver = Solver {
        model,
        abstraction,
        most,
        entries: Vec::new(),
        origins: Vec::new(),
        places: HashMap::new(),
        roots: HashMap::new(),
        openers: HashMap::new(),
        members: HashMap::new(),
    };
    solver.root(model.start, 0, abstraction.start(), Origin::Start);
    let mut place = 0;
    while place < solver.entries.len() && solver.entries.len() <= most {
        solver.process(place);
        place += 1;
    }
    let closed = solver.entries.len() <= most;
    let row = |entry: &Entry<A::Shape>| {
        let mut row = vec![entry.root, entry.state, entry.label];
        row.extend(numbers(&entry.shape));
        row
    };
    let rows = solver.entries.iter().take(most).map(row).collect();
    Solved { rows, origins: solver.origins, closed }
}

/// A table over the named abstraction, of at most `most` rows.
pub fn solve(drawn: &Drawn, name: &str, top: u64, most: usize) -> Solved {
    let model = drawn.model();
    if name == "untimed" {
        return saturate(&model, &Untimed, most, |_| Vec::new());
    }
    let regions = Regions { clocks: model.clocks, top: top as u8 };
    let width = regions.width();
    let numbers = |region: &Region| {
        let items = region.items[..width].iter();
        items.flat_map(|item| [u64::from(item.whole), u64::from(item.rank)]).collect()
    };
    saturate(&model, &regions, most, numbers)
}
