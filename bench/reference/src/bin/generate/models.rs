//! Random models, with closed tables and runs of them.

use crate::document::{Drawn, Object, Row};
use crate::random::Random;
use crate::solver::{solve, Solved};
use reference::case::{Case, LARGEST};
use reference::model::Action;

/// An interval with bounds up to `top`, rarely an empty one.
fn interval(random: &mut Random, top: u64) -> [u64; 4] {
    let low = random.below(top + 1);
    let low_flag = u64::from(random.chance(30));
    if random.chance(25) {
        return [low, low_flag, 0, 2];
    }
    let high = if random.chance(85) { random.range(low, top) } else { random.below(top + 1) };
    let high_flag = u64::from(random.chance(if high > low { 40 } else { 10 }));
    [low, low_flag, high, high_flag]
}

pub fn rule(random: &mut Random, drawn: &Drawn, top: u64) -> [u64; 8] {
    let from = random.below(drawn.states);
    let to = random.below(drawn.states);
    let kind = match random.below(100) {
        0..=14 => 0,
        15..=34 if drawn.clocks > 0 => 1,
        35..=44 if drawn.clocks > 0 => 2,
        45..=69 if drawn.labels > 0 => 3,
        70..=99 if drawn.labels > 0 => 4,
        _ => 0,
    };
    let argument = match kind {
        1 | 2 => random.below(drawn.clocks),
        3 | 4 => random.range(1, drawn.labels),
        _ => 0,
    };
    let [low, low_flag, high, high_flag] = interval(random, top);
    [from, to, kind, argument, low, low_flag, high, high_flag]
}

pub fn model(random: &mut Random, clocks: u64, top: u64) -> Drawn {
    let mut drawn = Drawn::bare(random.range(2, 6));
    drawn.labels = random.pick(&[0, 1, 1, 1, 1, 2, 2, 2]);
    drawn.clocks = clocks;
    drawn.start = random.below(drawn.states);
    drawn.target = random.below(drawn.states);
    for _ in 0..random.range(1, 9) {
        let rule = rule(random, &drawn, top);
        drawn.rules.push(rule);
    }
    drawn
}

/// A model that sets a clock, pushes, sets a clock above, pops and tests, so
/// that frames of several clocks are joined in many ways.
fn layered(random: &mut Random, clocks: u64, top: u64) -> Drawn {
    let mut drawn = Drawn { labels: 1, clocks, ..Drawn::bare(random.range(4, 5)) };
    let mut add = |from, to, kind, argument| {
        let [low, low_flag, high, high_flag] = interval(random, top);
        drawn.rules.push([from, to, kind, argument, low, low_flag, high, high_flag]);
        random.below(clocks.max(1))
    };
    let mut clock = add(0, 1, 3, 1);
    for (from, to, kind) in [(0, 0, 2), (1, 1, 2), (2, 2, 1)] {
        if clocks > 0 {
            clock = add(from, to, kind, clock);
        }
    }
    add(1, 2, 4, 1);
    if random.chance(30) {
        let rule = rule(random, &drawn, top);
        drawn.rules.push(rule);
    }
    for place in (1..drawn.rules.len()).rev() {
        drawn.rules.swap(place, random.place(place + 1));
    }
    drawn
}

/// Moves the target to a state that the rows are never in.
pub fn avoid(random: &mut Random, drawn: &mut Drawn, rows: &[Row]) {
    let free = |state: &u64| rows.iter().all(|row| row[1] != *state);
    let states: Vec<u64> = (0..drawn.states).filter(free).collect();
    drawn.target = if states.is_empty() {
        drawn.states += 1;
        drawn.states - 1
    } else {
        random.pick(&states)
    };
}

#[derive(Clone)]
pub struct Evidence {
    pub drawn: Drawn,
    pub top: u64,
    pub name: &'static str,
    pub solved: Solved,
}

impl Evidence {
    pub fn object(&self) -> Object {
        Object::Table { top: self.top, name: self.name, rows: self.solved.rows.clone() }
    }
}

/// A random model with a table of at least two rows. Nearly always the table
/// is closed.
pub fn evidence(random: &mut Random, most: usize) -> Evidence {
    loop {
        let name = if random.chance(25) { "untimed" } else { "regions" };
        let clocks = random.pick(&[0, 0, 0, 1, 1, 1, 1, 2, 2, 3]);
        let top = if clocks < 2 { random.below(4) } else { random.below(2) };
        let drawing = if random.chance(35) { layered } else { model };
        let mut drawn = drawing(random, clocks, top);
        let solved = solve(&drawn, name, top, most);
        if solved.rows.len() < 2 || !(solved.closed || random.chance(5)) {
            continue;
        }
        avoid(random, &mut drawn, &solved.rows);
        return Evidence { drawn, top, name, solved };
    }
}

/// A value that an assignment or a push of the rule likely accepts.
fn value(random: &mut Random, rule: &[u64; 8], scale: u64) -> u64 {
    let low = rule[4] * scale + rule[5];
    match rule[7] {
        2 => low + random.below(3 * scale),
        flag => {
            let high = (rule[6] * scale).saturating_sub(flag);
            if high < low {
                low
            } else {
                random.range(low, high)
            }
        }
    }
}

fn delay(random: &mut Random, scale: u64) -> Row {
    let some = random.below(3 * scale + 1);
    vec![random.pick(&[0, 1, scale / 2, scale, 2 * scale, some])]
}

fn step(random: &mut Random, drawn: &Drawn, case: &Case, scale: u64) -> Row {
    let state = case.run.as_ref().map_or(0, |run| run.state);
    let mut rules: Vec<usize> = (0..drawn.rules.len()).collect();
    if random.chance(90) {
        rules.retain(|&place| drawn.rules[place][0] == state);
    }
    if rules.is_empty() || random.chance(35) {
        return delay(random, scale);
    }
    let place = random.pick(&rules);
    let used = matches!(case.model.rules[place].action, Action::Assign(_) | Action::Push(_));
    let value = match random.below(10) {
        0 => random.below(4 * scale),
        1 if !used => random.below(LARGEST),
        _ => value(random, &drawn.rules[place], scale),
    };
    vec![place as u64, value]
}

/// A row that is likely refused.
fn wild(random: &mut Random, drawn: &Drawn) -> Row {
    let rules = drawn.rules.len() as u64;
    match random.below(4) {
        0 => vec![rules, 0],
        1 => vec![random.below(2 * rules + 1), random.below(3)],
        _ => vec![random.range(LARGEST - 2, LARGEST)],
    }
}

fn accepted(case: &mut Case, row: &[u64]) -> bool {
    match *row {
        [units] => case.delay(units).is_ok(),
        _ => case.fire(row[0], row[1]).is_ok(),
    }
}

/// A run of mostly legal rows. Some have a row that is refused, and go on
/// behind it.
pub fn run(random: &mut Random, drawn: &Drawn) -> Object {
    let scale = random.pick(&[1, 1, 2, 3, 10, 24, 1000, 999_999, 1_000_000]);
    let mut case = Case::new(drawn.model());
    case.begin(scale).expect("a scale in range");
    let length = random.range(0, 30) as usize;
    let mut rows = Vec::new();
    for _ in 0..3 * length {
        if rows.len() >= length {
            break;
        }
        let is_wild = random.chance(1);
        let row = if is_wild { wild(random, drawn) } else { step(random, drawn, &case, scale) };
        if accepted(&mut case, &row) || is_wild || random.chance(4) {
            rows.push(row);
        }
    }
    Object::Run { scale, rows }
}
