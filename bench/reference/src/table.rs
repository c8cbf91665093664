//! The entries of a table, and the search for takers.

use crate::abstraction::Abstraction;
use std::collections::{HashMap, HashSet};

#[derive(Clone, Copy, Debug, PartialEq, Eq, Hash)]
pub struct Entry<S> {
    pub root: u64,
    pub state: u64,
    pub label: u64,
    pub shape: S,
}

/// How takers are found: by going through all entries, or by a hash table.
/// The second is right where "within" means "equal".
#[derive(Clone, Copy, Debug, PartialEq, Eq)]
pub enum Search {
    Scan,
    Index,
}

struct Index<S> {
    entries: HashSet<Entry<S>>,
    roots: HashMap<(u64, u64, S), Vec<usize>>,
}

pub struct Table<'a, A: Abstraction> {
    abstraction: &'a A,
    pub entries: &'a [Entry<A::Shape>],
    index: Option<Index<A::Shape>>,
}

/// Whether the entry at this place is its own root.
pub fn is_root<S>(entries: &[Entry<S>], place: usize) -> bool {
    entries[place].root == place as u64
}

impl<'a, A: Abstraction> Table<'a, A> {
    pub fn new(abstraction: &'a A, entries: &'a [Entry<A::Shape>], search: Search) -> Self {
        let index = (search == Search::Index).then(|| {
            let mut roots: HashMap<_, Vec<usize>> = HashMap::new();
            for (place, entry) in entries.iter().enumerate().filter(|(p, _)| is_root(entries, *p)) {
                roots.entry((entry.state, entry.label, entry.shape)).or_default().push(place);
            }
            Index { entries: entries.iter().copied().collect(), roots }
        });
        Table { abstraction, entries, index }
    }

    /// Whether an entry of this root, state and label takes the shape.
    pub fn takes(&self, wanted: &Entry<A::Shape>) -> bool {
        if let Some(index) = &self.index {
            return index.entries.contains(wanted);
        }
        self.entries.iter().any(|entry| {
            entry.root == wanted.root
                && entry.state == wanted.state
                && entry.label == wanted.label
                && self.abstraction.within(&wanted.shape, &entry.shape)
        })
    }

    /// Calls `visit` for each root of this state and label that takes the
    /// shape, until it answers true; tells whether it did.
    pub fn any_root(
        &self,
        state: u64,
        label: u64,
        shape: &A::Shape,
        mut visit: impl FnMut(usize) -> bool,
    ) -> bool {
        if let Some(index) = &self.index {
            let roots = index.roots.get(&(state, label, *shape));
            return roots.is_some_and(|roots| roots.iter().any(|&root| visit(root)));
        }
        self.entries.iter().enumerate().any(|(place, entry)| {
            entry.root == place as u64
                && entry.state == state
                && entry.label == label
                && self.abstraction.within(shape, &entry.shape)
                && visit(place)
        })
    }
}
