//! Inputs to time programs on. Each is the same each time.

use crate::document::{Document, Drawn, Object, Row};
use crate::solver::{solve, Solved};

pub struct Input {
    pub name: String,
    pub text: String,
}

/// Doubles rows that are no roots until there are `length`; what was closed
/// stays so.
fn pad(rows: &mut Vec<Row>, length: usize) {
    let is_member = |&place: &usize| rows[place][0] != place as u64;
    let members: Vec<usize> = (0..rows.len()).filter(is_member).collect();
    let wanted = length.saturating_sub(rows.len());
    for &place in members.iter().cycle().take(wanted) {
        rows.push(rows[place].clone());
    }
}

fn judged(name: &str, model: Drawn, top: u64, abstraction: &'static str, solved: Solved) -> Input {
    assert!(solved.closed, "{name} is not closed");
    let objects = vec![Object::Table { top, name: abstraction, rows: solved.rows }];
    Input { name: name.to_string(), text: Document { model, objects }.text() }
}

/// States in a line. In the first the first clock, if there is one, may be
/// given a value up to `free`.
fn line(states: u64, clocks: u64, free: u64) -> Drawn {
    let last = states - 1;
    let mut rules: Vec<[u64; 8]> =
        (0..last).map(|from| [from, from + 1, 0, 0, 0, 0, 0, 0]).collect();
    if clocks > 0 {
        rules.push([0, 0, 2, 0, 0, 0, free, 0]);
    }
    Drawn { states: states + 1, start: 0, target: states, labels: 0, clocks, rules }
}

/// The longest line whose table has at most `rows` rows, padded to these.
fn grown(name: &str, rows: usize, clocks: u64, top: u64, free: u64) -> Input {
    let fits = |states: &u64| solve(&line(*states, clocks, free), "regions", top, rows).closed;
    let states = (1..=63).take_while(fits).last().expect("one state fits");
    let model = line(states, clocks, free);
    let mut solved = solve(&model, "regions", top, rows);
    pad(&mut solved.rows, rows);
    judged(name, model, top, "regions", solved)
}

/// Symbols are pushed on one another and popped within `top` units, and then
/// all goes on in state `again`: entries open roots with many entries.
fn pops(clocks: u64, top: u64, again: u64) -> Input {
    let mut rules = vec![
        [0, 1, 3, 1, 0, 0, 0, 0],
        [1, 1, 3, 1, 0, 0, 0, 0],
        [1, 2, 4, 1, 0, 0, top, 0],
        [2, 2, 4, 1, 0, 0, top, 0],
        [2, again, 0, 0, 0, 0, 0, 0],
    ];
    if clocks > 0 {
        rules.push([2, 2, 1, 0, 0, 0, top, 0]);
    }
    let model = Drawn { states: 4, start: 0, target: 3, labels: 1, clocks, rules };
    let solved = solve(&model, "regions", top, 2048);
    judged(&format!("pops-clocks-{clocks}-top-{top}"), model, top, "regions", solved)
}

/// 64 rules, 2,048 rows without times.
fn untimed() -> Input {
    let mut rules = Vec::new();
    for state in 0..32 {
        rules.push([state, (state + 1) % 32, 0, 0, 0, 0, 0, 0]);
    }
    for label in 1..=16 {
        rules.push([label, 2 * label - 1, 3, label, 0, 0, 0, 0]);
        rules.push([31 - label, label, 4, label, 0, 0, 0, 0]);
    }
    let model = Drawn { states: 33, start: 0, target: 32, labels: 16, clocks: 0, rules };
    let mut solved = solve(&model, "untimed", 0, 2048);
    pad(&mut solved.rows, 2048);
    judged("untimed-2048-rows-64-rules", model, 0, "untimed", solved)
}

/// Half of the rows open a root with the other half in it, and each return is
/// taken by a row in the middle of the table.
fn untimed_pops() -> Input {
    let rules = vec![[0, 0, 3, 1, 0, 0, 0, 0], [0, 1, 4, 1, 0, 0, 0, 0]];
    let model = Drawn { states: 3, start: 0, target: 2, labels: 1, clocks: 0, rules };
    let mut rows = vec![vec![0, 0, 0]];
    rows.extend(vec![vec![1, 0, 1]; 1023]);
    rows.push(vec![0, 1, 0]);
    rows.extend(vec![vec![1, 1, 1]; 1023]);
    let solved = Solved { rows, origins: Vec::new(), closed: true };
    judged("pops-untimed-2048-rows", model, 0, "untimed", solved)
}

/// A run of some thousand rows that goes up and down the stack.
fn long_run() -> Input {
    let rules = vec![[0, 0, 3, 1, 0, 0, 0, 0], [0, 0, 4, 1, 0, 0, 0, 2], [0, 0, 2, 0, 0, 0, 1, 0]];
    let model = Drawn { states: 2, start: 0, target: 1, labels: 1, clocks: 3, rules };
    let mut rows: Vec<Row> = Vec::new();
    while rows.len() < 10_800 {
        for _ in 0..100 {
            rows.extend([vec![0, 0], vec![3], vec![2, 5]]);
        }
        rows.extend(vec![vec![1, 0]; 100]);
    }
    let objects = vec![Object::Run { scale: 10, rows }];
    Input { name: "long-run".to_string(), text: Document { model, objects }.text() }
}

fn small() -> Input {
    let model = Drawn::bare(2);
    let objects = vec![Object::Table { top: 0, name: "untimed", rows: vec![vec![0, 0, 0]] }];
    Input { name: "small".to_string(), text: Document { model, objects }.text() }
}

pub fn inputs() -> Vec<Input> {
    let mut all = vec![small(), long_run(), untimed(), untimed_pops()];
    for rows in [250, 500, 1000, 2000] {
        all.push(grown(&format!("rows-{rows:04}-one-clock-top-1"), rows, 1, 1, 1));
    }
    all.push(grown("rows-2000-one-clock-top-3", 2000, 1, 3, 3));
    for clocks in 0..=3 {
        all.push(grown(&format!("clocks-{clocks}-rows-1000-top-1"), 1000, clocks, 1, 1));
    }
    for top in [0, 1, 3, 7, 15] {
        all.push(grown(&format!("top-{top:02}-rows-1000-one-clock"), 1000, 1, top, 0));
    }
    for (clocks, top, again) in [(0, 3, 0), (0, 8, 0), (1, 0, 0), (1, 1, 0), (1, 2, 1)] {
        all.push(pops(clocks, top, again));
    }
    all
}
