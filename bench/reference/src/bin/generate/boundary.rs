//! A catalogue of texts at the boundaries of what is allowed.

use crate::document::{Document, Drawn, Object, Row};
use crate::solver::solve;
use reference::case::LARGEST;
use reference::settle::LONGEST;

fn text(model: &Drawn, objects: Vec<Object>) -> String {
    Document { model: model.clone(), objects }.text()
}

fn run(scale: u64, rows: &[&[u64]]) -> Object {
    Object::Run { scale, rows: rows.iter().map(|row| row.to_vec()).collect() }
}

fn table(top: u64, name: &'static str, rows: &[Row]) -> Object {
    Object::Table { top, name, rows: rows.to_vec() }
}

/// Texts that are hardly texts.
const SHORT: &[&str] = &[
    "",
    " ",
    "\n",
    "[",
    "[]",
    " [ ] ",
    "[]]",
    "[],",
    "[]x",
    "[] 1",
    "{}",
    "[{}]",
    "[{",
    "[1]",
    "[[]]",
    "null",
    "[null]",
    "\u{feff}[]",
    "[\"states\"]",
    "-",
    "1",
    "[{\"states\"",
    "]",
    "\"",
    "[{\"states\":",
    "[{\"states\":1.",
    "[{\"states\":-",
    "[{\"states\":01",
    "[{\"states\":1e",
    "[{\"start\":0}]",
    "[{\"states\" 1",
    "[{\"states\",1",
    "[{states:1",
    "[\u{b}]",
    "[\0]",
];

fn raw(all: &mut Vec<String>) {
    all.extend(SHORT.iter().map(|text| text.to_string()));
    let good = text(&Drawn::bare(2), Vec::new());
    for end in ["", " \t\r\n", "]", ",", "0", "x", "\0"] {
        all.push(format!("{good}{end}"));
    }
    for length in [LONGEST - 1, LONGEST, LONGEST + 1, LONGEST + 4096] {
        all.push(format!("{good}{}", " ".repeat(length - good.len())));
        all.push(format!("[{}", "\n".repeat(length - 1)));
    }
}

fn sizes(all: &mut Vec<String>) {
    let mut draw = |states, start, target, labels, clocks| {
        let rules = Vec::new();
        let model = Drawn { states, start, target, labels, clocks, rules };
        all.push(text(&model, vec![run(1, &[&[0]])]));
    };
    for states in [0, 1, 64, 65, LARGEST] {
        draw(states, 0, 0, 0, 0);
        draw(states, states, 0, 0, 0);
        draw(states, 0, states, 0, 0);
        draw(states, states.saturating_sub(1), states.saturating_sub(1), 16, 3);
    }
    for labels in [16, 17] {
        for clocks in [3, 4, LARGEST] {
            draw(2, 0, 1, labels, clocks);
            draw(2, 2, 1, labels, clocks);
        }
    }
}

/// Rules with each number at its boundary.
const RULES: &[[u64; 8]] = &[
    [2, 2, 0, 0, 0, 0, 0, 0],
    [3, 0, 0, 0, 0, 0, 0, 0],
    [0, 3, 0, 0, 0, 0, 0, 0],
    [0, 3, 5, 0, 0, 0, 0, 0],
    [0, 0, 5, 0, 0, 0, 0, 0],
    [0, 0, 5, 1, 16, 0, 0, 0],
    [0, 0, 0, 1, 0, 0, 0, 0],
    [0, 0, 0, 1, 16, 0, 0, 0],
    [0, 0, 1, 1, 0, 0, 0, 0],
    [0, 0, 1, 2, 0, 0, 0, 0],
    [0, 0, 2, 1, 0, 0, 0, 0],
    [0, 0, 2, 2, 0, 0, 0, 0],
    [0, 0, 3, 0, 0, 0, 0, 0],
    [0, 0, 3, 2, 0, 0, 0, 0],
    [0, 0, 3, 3, 0, 0, 0, 0],
    [0, 0, 4, 0, 0, 0, 0, 0],
    [0, 0, 4, 2, 0, 0, 0, 0],
    [0, 0, 4, 3, 0, 0, 0, 0],
    [0, 0, 0, 0, 15, 1, 15, 1],
    [0, 0, 0, 0, 16, 0, 0, 0],
    [0, 0, 0, 0, 0, 0, 16, 0],
    [0, 0, 0, 0, 0, 2, 0, 0],
    [0, 0, 0, 0, 0, 0, 0, 3],
    [0, 0, 0, 0, 15, 0, 0, 2],
    [0, 0, 0, 0, 0, 0, 1, 2],
    [0, 0, 0, 0, LARGEST, 0, 0, 0],
    [LARGEST, 0, 0, 0, 0, 0, 0, 0],
];

fn rules(all: &mut Vec<String>) {
    let (states, labels, clocks) = (3, 2, 2);
    let base = Drawn { states, start: 0, target: 2, labels, clocks, rules: Vec::new() };
    let mut draw = |rules: &[[u64; 8]]| {
        let model = Drawn { rules: rules.to_vec(), ..base.clone() };
        all.push(text(&model, vec![run(1, &[&[0, 0]])]));
    };
    let good = [0, 1, 0, 0, 0, 0, 0, 0];
    for count in [63, 64, 65, 66, 130] {
        draw(&vec![good; count]);
    }
    draw(&[vec![good; 64], vec![[3, 0, 9, 9, 99, 9, 99, 9]]].concat());
    for rule in RULES {
        draw(&[good, good, *rule]);
    }
}

/// Values at each side of each kind of bound, for each kind of rule.
fn bounds(all: &mut Vec<String>) {
    for (low_flag, high_flag) in [(0, 0), (1, 0), (0, 1), (1, 1), (0, 2), (1, 2)] {
        let high = if high_flag == 2 { 0 } else { 2 };
        let rule = |to, kind, argument| [0, to, kind, argument, 1, low_flag, high, high_flag];
        let free = |kind, argument| [0, 0, kind, argument, 0, 0, 0, 2];
        let rules = vec![rule(1, 1, 0), rule(1, 2, 0), rule(1, 3, 1), rule(1, 4, 1), free(3, 1)];
        let model = Drawn { states: 2, start: 0, target: 1, labels: 1, clocks: 1, rules };
        for value in [9, 10, 11, 19, 20, 21] {
            let objects = vec![
                run(10, &[&[value], &[0, 0]]),
                run(10, &[&[1, value]]),
                run(10, &[&[2, value], &[5]]),
                run(10, &[&[4, value], &[3, 7]]),
                run(10, &[&[4, 0], &[value], &[3, LARGEST]]),
            ];
            all.push(text(&model, objects));
        }
    }
}

/// Runs with numbers at the largest.
const LARGE: &[&[&[u64]]] = &[
    &[&[LARGEST], &[0]],
    &[&[LARGEST], &[1]],
    &[&[LARGEST - 1], &[1], &[1]],
    &[&[LARGEST + 1]],
    &[&[0, LARGEST], &[0]],
    &[&[0, LARGEST], &[1]],
    &[&[0, LARGEST], &[0, 0], &[1]],
    &[&[0, LARGEST], &[1, 0], &[1]],
    &[&[2, LARGEST], &[1]],
    &[&[2, LARGEST], &[2, 0], &[1]],
    &[&[0, LARGEST + 1]],
    &[&[3, LARGEST]],
    &[&[LARGEST, 0]],
    &[&[5, 0]],
];

fn runs(all: &mut Vec<String>) {
    let free = |to, kind, argument| [0, to, kind, argument, 0, 0, 0, 2];
    let rules = vec![free(0, 3, 1), free(0, 4, 1), free(0, 2, 0), free(1, 0, 0), free(0, 3, 2)];
    let model = Drawn { states: 3, start: 0, target: 1, labels: 2, clocks: 1, rules };
    let mut draw = |objects| all.push(text(&model, objects));
    for scale in [0, 1, 1_000_000, 1_000_001, LARGEST] {
        draw(vec![run(scale, &[]), run(scale, &[&[3, 0]]), run(0, &[&[9, 9]])]);
    }
    for &rows in LARGE {
        draw(vec![run(1_000_000, rows), run(1, &[&[3, 5]])]);
    }
    draw(vec![run(1, &[&[1, 0]]), run(1, &[&[4, 0], &[1, 0]]), run(1, &[&[3, 0], &[3, 0]])]);
    draw(vec![run(1, &[&[3, 0], &[7]]), run(1, &[&[8, 0]]), run(1, &[&[]])]);
    for depth in [127, 128, 129] {
        let mut rows: Vec<Row> = vec![vec![0, 3]; depth];
        rows.push(vec![1]);
        rows.push(vec![1, 0]);
        rows.extend([vec![0, 3], vec![0, 3]]);
        draw(vec![Object::Run { scale: 2, rows }]);
    }
    all.push(text(&Drawn::bare(1), vec![run(1, &[]), run(1, &[&[0, 0]]), run(1, &[&[1]])]));
}

/// Many rows without times: one root for each label, and a last row at fault.
fn long_tables(all: &mut Vec<String>) {
    for length in [0, 1, 2, 2047, 2048, 2049, 4000] {
        let rows = vec![vec![0, 0, 0]; length];
        all.push(text(&Drawn::bare(2), vec![table(0, "untimed", &rows), run(1, &[&[0]])]));
    }
    for (length, last) in [(2048, 0), (2048, 1), (2048, 2), (2048, 2047), (2049, 0)] {
        let mut rows = vec![vec![0, 0, 0]; length];
        rows[length - 1] = vec![last, 1, 0];
        all.push(text(&Drawn::bare(3), vec![table(0, "untimed", &rows)]));
    }
    let rules = vec![[0, 1, 3, 1, 0, 0, 0, 0], [1, 2, 4, 1, 0, 0, 0, 0], [2, 3, 4, 1, 0, 0, 0, 0]];
    let model = Drawn { states: 5, start: 0, target: 4, labels: 1, clocks: 0, rules };
    for last in [vec![1, 1, 1], vec![1, 2, 1], vec![1, 3, 1]] {
        let mut rows = vec![vec![1, 1, 1]; 2048];
        rows[0] = vec![0, 0, 0];
        rows[2046] = vec![0, 2, 0];
        rows[2047] = last;
        all.push(text(&model, vec![table(0, "untimed", &rows)]));
    }
}

fn tops(all: &mut Vec<String>) {
    let base = Drawn { clocks: 1, labels: 1, ..Drawn::bare(2) };
    for kind in 0..5 {
        for (low, high, flag) in [(2, 2, 0), (1, 3, 1), (3, 0, 2), (15, 15, 0)] {
            let argument = u64::from(kind > 2);
            let rules = vec![[1, 1, kind, argument, low, 0, high, flag]];
            let model = Drawn { rules, ..base.clone() };
            let judged = |top: u64| table(top, "untimed", &[vec![0, 0, 0]]);
            all.push(text(&model, [1, 2, 3, 14, 15, 16, LARGEST].map(judged).to_vec()));
        }
    }
    for top in [0, 1, 14, 15] {
        let rows = solve(&base, "regions", top, 2048).rows;
        let mut objects = vec![table(top, "regions", &rows)];
        objects.push(table(top + 1, "regions", &rows));
        objects.push(table(top.saturating_sub(1), "regions", &rows));
        all.push(text(&base, objects));
    }
}

/// A lawful table, each number of each row set to values at boundaries.
fn entries(all: &mut Vec<String>) {
    let rules = vec![[0, 1, 3, 1, 0, 0, 0, 0], [1, 2, 4, 1, 1, 0, 1, 0], [2, 2, 1, 0, 0, 0, 1, 1]];
    let model = Drawn { states: 4, start: 0, target: 3, labels: 2, clocks: 1, rules };
    for name in ["regions", "untimed"] {
        let rows = solve(&model, name, 1, 2048).rows;
        for place in [0, 1, rows.len() / 2, rows.len() - 1] {
            let mut objects = vec![table(1, name, &rows)];
            for number in 0..rows[0].len().min(7) {
                for value in [0, 1, 2, 3, 4, 9, 10, 255, 256, 2048, LARGEST] {
                    let mut changed = rows.clone();
                    changed[place][number] = value;
                    objects.push(table(1, name, &changed));
                }
            }
            objects.chunks(9).for_each(|some| all.push(text(&model, some.to_vec())));
        }
        for width in [0, 1, 2, 3, 4, 5, 8, 9, 12, 13, 14, 15, 17, 21] {
            let row = vec![0; width];
            all.push(text(&model, vec![table(1, name, &rows[..1]), table(1, name, &[row])]));
        }
    }
    for name in ["regio", "regionsx", "Regions", "untime", "untimedx", "other", "", "table", "top"]
    {
        all.push(text(&model, vec![table(1, name, &[vec![0; 13]])]));
    }
}

pub fn catalogue(tables: bool) -> Vec<String> {
    let mut all = Vec::new();
    raw(&mut all);
    sizes(&mut all);
    rules(&mut all);
    bounds(&mut all);
    runs(&mut all);
    if tables {
        long_tables(&mut all);
        tops(&mut all);
        entries(&mut all);
    }
    all
}
