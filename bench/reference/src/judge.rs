//! Judges whether a table is lawful and closed.

use crate::abstraction::Abstraction;
use crate::fault::{Fault, NO_ENTRY, NO_RULE};
use crate::model::{Action, Model, Rule};
use crate::table::{is_root, Table};
pub use crate::table::{Entry, Search};

pub const LONGEST_TABLE: usize = 2048;
pub const HIGHEST_TOP: u64 = 15;

pub fn judge<A: Abstraction>(
    model: &Model,
    abstraction: &A,
    top: u64,
    entries: &[Entry<A::Shape>],
    search: Search,
) -> Result<(), Fault> {
    let length_fits = (1..=LONGEST_TABLE).contains(&entries.len());
    if !length_fits || top > HIGHEST_TOP || top < greatest_bound(model) {
        return Err(Fault::evidence(18, NO_ENTRY, NO_RULE, NO_ENTRY));
    }
    let at = |number, entry| Fault::evidence(number, entry, NO_RULE, NO_ENTRY);
    let all = 0..entries.len();
    if let Some(entry) = all.clone().find(|&e| !lawful(model, abstraction, entries, e)) {
        return Err(at(19, entry));
    }
    if !first_fits(model, abstraction, &entries[0]) {
        return Err(at(20, 0));
    }
    if let Some(entry) = all.clone().find(|&e| entries[e].state == model.target) {
        return Err(at(21, entry));
    }
    let table = Table::new(abstraction, entries, search);
    let mut closing = Closing { model, abstraction, table, list: Vec::new() };
    all.into_iter().try_for_each(|entry| closing.entry(entry))
}

/// The greatest finite bound of the rules that look at their interval.
fn greatest_bound(model: &Model) -> u64 {
    let timed = model.rules.iter().filter(|rule| rule.action != Action::Move);
    timed.map(|rule| rule.interval.greatest()).max().unwrap_or(0)
}

fn lawful<A: Abstraction>(
    model: &Model,
    abstraction: &A,
    entries: &[Entry<A::Shape>],
    place: usize,
) -> bool {
    let entry = &entries[place];
    let rooted = (entry.root as usize) < entries.len() && {
        let root = entry.root as usize;
        is_root(entries, root) && entries[root].label == entry.label
    };
    rooted
        && entry.state < model.states
        && entry.label <= model.labels
        && abstraction.lawful(&entry.shape)
}

fn first_fits<A: Abstraction>(model: &Model, abstraction: &A, first: &Entry<A::Shape>) -> bool {
    first.root == 0
        && first.state == model.start
        && first.label == 0
        && abstraction.within(&abstraction.start(), &first.shape)
}

/// Looks for the first listed shape that no entry takes.
struct Closing<'a, A: Abstraction> {
    model: &'a Model,
    abstraction: &'a A,
    table: Table<'a, A>,
    list: Vec<A::Shape>,
}

impl<A: Abstraction> Closing<'_, A> {
    fn entry(&mut self, place: usize) -> Result<(), Fault> {
        let entry = self.table.entries[place];
        self.list.clear();
        self.abstraction.time(&entry.shape, &mut self.list);
        if !self.all_taken(&entry, entry.state) {
            return Err(Fault::evidence(22, place, NO_RULE, NO_ENTRY));
        }
        for (number, rule) in self.model.rules.iter().enumerate() {
            if rule.from == entry.state && !self.follows(&entry, rule) {
                return Err(Fault::evidence(22, place, number, NO_ENTRY));
            }
        }
        self.returns(place, &entry)
    }

    /// Whether every shape listed is taken in `state`, root and label kept.
    fn all_taken(&self, entry: &Entry<A::Shape>, state: u64) -> bool {
        let taken = |&shape: &A::Shape| self.table.takes(&Entry { state, shape, ..*entry });
        self.list.iter().all(taken)
    }

    /// Whether all that a rule other than a pop leads to is in the table.
    fn follows(&mut self, entry: &Entry<A::Shape>, rule: &Rule) -> bool {
        self.list.clear();
        let (shape, interval, list) = (&entry.shape, &rule.interval, &mut self.list);
        match rule.action {
            Action::Move => list.push(*shape),
            Action::Test(clock) => self.abstraction.test(shape, clock, interval, list),
            Action::Assign(clock) => self.abstraction.assign(shape, clock, interval, list),
            Action::Push(label) => {
                self.abstraction.push(shape, interval, list);
                let root = |shape| self.table.any_root(rule.to, label, shape, |_| true);
                return self.list.iter().all(root);
            }
            Action::Pop(_) => return true,
        }
        self.all_taken(entry, rule.to)
    }

    /// Looks at the entries above whose roots the entry opens.
    fn returns(&mut self, place: usize, entry: &Entry<A::Shape>) -> Result<(), Fault> {
        let Some(opened) = self.opened(entry) else {
            return Ok(());
        };
        for (above, upper) in self.table.entries.iter().enumerate() {
            if !opened[upper.root as usize] {
                continue;
            }
            for (number, rule) in self.model.rules.iter().enumerate() {
                if rule.from != upper.state || rule.action != Action::Pop(upper.label) {
                    continue;
                }
                self.list.clear();
                let (below, list) = (&entry.shape, &mut self.list);
                self.abstraction.pop(below, &upper.shape, &rule.interval, list);
                if !self.all_taken(entry, rule.to) {
                    return Err(Fault::evidence(22, place, number, above));
                }
            }
        }
        Ok(())
    }

    /// Which places are roots that the entry opens, if any is.
    fn opened(&mut self, entry: &Entry<A::Shape>) -> Option<Vec<bool>> {
        let mut opened = None;
        for rule in self.model.rules.iter().filter(|rule| rule.from == entry.state) {
            let Action::Push(label) = rule.action else {
                continue;
            };
            self.list.clear();
            self.abstraction.push(&entry.shape, &rule.interval, &mut self.list);
            for shape in &self.list {
                self.table.any_root(rule.to, label, shape, |root| {
                    opened.get_or_insert_with(|| vec![false; self.table.entries.len()])[root] =
                        true;
                    false
                });
            }
        }
        opened
    }
}
