//! Makes texts and tables wrong in one place.

use crate::document::{Drawn, Row};
use crate::models::{rule, Evidence};
use crate::random::Random;
use crate::solver::Origin;
use reference::case::LARGEST;
use reference::token::Reader;

/// Takes a row out. Roots behind it move with their rows.
fn remove(rows: &mut Vec<Row>, place: usize) {
    rows.remove(place);
    for row in rows.iter_mut().filter(|row| row[0] > place as u64) {
        row[0] -= 1;
    }
}

/// Puts the rows behind the first in another order, roots with them.
pub fn shuffle(random: &mut Random, rows: &mut Vec<Row>, origins: &mut [Origin]) {
    let mut order: Vec<usize> = (0..rows.len()).collect();
    for place in (2..order.len()).rev() {
        order.swap(place, 1 + random.place(place));
    }
    let mut places = vec![0; rows.len()];
    order.iter().enumerate().for_each(|(new, &old)| places[old] = new as u64);
    let moved = |&old: &usize| {
        let mut row = rows[old].clone();
        row[0] = places[row[0] as usize];
        row
    };
    let shuffled = order.iter().map(moved).collect();
    let old = origins.to_vec();
    order.iter().enumerate().for_each(|(new, &place)| origins[new] = old[place]);
    *rows = shuffled;
}

/// A place of a row that came into the table in a way of some kind.
fn by_origin(random: &mut Random, evidence: &Evidence) -> usize {
    let origin = random.pick(&[Origin::Time, Origin::Rule, Origin::Push, Origin::Pop, Origin::Pop]);
    let rows = evidence.solved.rows.len();
    let places: Vec<usize> = (0..rows).filter(|&p| evidence.solved.origins[p] == origin).collect();
    if places.is_empty() {
        random.place(rows)
    } else {
        random.pick(&places)
    }
}

/// Another value for a number: one off, or at some boundary.
fn other(random: &mut Random, number: u64) -> u64 {
    match random.below(8) {
        0..=2 => number + 1,
        3..=5 => number.saturating_sub(1),
        6 => random.below(12),
        _ => random.pick(&[0, 15, 16, 17, 63, 64, 255, 256, 257, 2047, 2048, LARGEST]),
    }
}

fn alter_number(random: &mut Random, rows: &mut [Row]) {
    let row = random.place(rows.len());
    let place = random.place(rows[row].len());
    rows[row][place] = other(random, rows[row][place]);
}

/// A rule that the table was not made for.
fn alter_model(random: &mut Random, drawn: &mut Drawn, top: u64) {
    let mut new = rule(random, drawn, top);
    if random.chance(40) && drawn.labels > 0 {
        new[2] = 4;
        new[3] = random.range(1, drawn.labels);
    }
    match random.below(3) {
        0 if !drawn.rules.is_empty() => {
            let place = random.place(drawn.rules.len());
            drawn.rules[place][4..].copy_from_slice(&new[4..]);
        }
        _ => drawn.rules.push(new),
    }
}

/// Damages a table or the model that it is about.
pub fn table(random: &mut Random, evidence: &mut Evidence) {
    let place = by_origin(random, evidence);
    let rows = &mut evidence.solved.rows;
    match random.below(20) {
        0..=6 => remove(rows, place),
        7..=9 => alter_number(random, rows),
        10 => rows[place][1] = random.below(evidence.drawn.states),
        11..=14 => alter_model(random, &mut evidence.drawn, evidence.top),
        15 => evidence.drawn.target = rows[place][1],
        16 => evidence.top = random.pick(&[0, 1, 2, 3, 4, 15, 16]),
        17 => {
            let mut row = rows[place].clone();
            let number = random.place(row.len());
            row[number] = other(random, row[number]);
            rows.insert(random.place(rows.len()), row);
        }
        18 => {
            let other = random.place(rows.len());
            rows.swap(place, other);
        }
        _ => rows.truncate(place),
    }
}

/// The places and lengths of the tokens of a text.
fn tokens(text: &[u8]) -> Vec<(usize, usize)> {
    let mut reader = Reader::new(text);
    let mut found = Vec::new();
    while let Ok(Some((place, _))) = reader.advance() {
        found.push((place, reader.place() - place));
    }
    found
}

const PIECES: [&str; 50] = [
    "{",
    "}",
    "[",
    "]",
    ":",
    ",",
    "\"states\"",
    "\"start\"",
    "\"scale\"",
    "\"run\"",
    "\"top\"",
    "\"table\"",
    "\"regions\"",
    "\"untimed\"",
    "\"abstraction\"",
    "\"other\"",
    "\"\"",
    "\"Top\"",
    "\"to p\"",
    "\"\\u0074op\"",
    "'top'",
    "\"top",
    "true",
    "false",
    "null",
    "0",
    "1",
    "-1",
    "-0",
    "-",
    "+1",
    "01",
    "00",
    ".5",
    "1.",
    "1.0",
    "0.5",
    "1e",
    "1e0",
    "1E+",
    "1E+2",
    "1e-3",
    "-1.5e2",
    "1000000000000000",
    "1000000000000001",
    "18446744073709551616",
    "\u{feff}",
    "\u{e9}",
    "/*x*/",
    "99999999999999999999999999999999999999999",
];

/// Changes, doubles, takes out or puts in a token.
pub fn token(random: &mut Random, text: &mut Vec<u8>) {
    let all = tokens(text);
    if all.is_empty() {
        return;
    }
    let (place, length) = random.pick(&all);
    let piece = random.pick(&PIECES).as_bytes().to_vec();
    let new = match random.below(6) {
        0 => Vec::new(),
        1 => text[place..place + length].repeat(2),
        2 => [&piece, &text[place..place + length]].concat(),
        _ => piece,
    };
    text.splice(place..place + length, new);
}

/// Changes, takes out or puts in one byte, or cuts the text off.
pub fn byte(random: &mut Random, text: &mut Vec<u8>) {
    if text.is_empty() {
        return;
    }
    let place = random.place(text.len());
    let likely = random.pick(b"{}[]:,\"0123456789-+.eE \n\t\r\x0b\x00\x7f\xffaz");
    match random.below(6) {
        0 => text.truncate(place),
        1 => drop(text.remove(place)),
        2 => text.insert(place, likely),
        3 => text[place] = random.below(256) as u8,
        _ => text[place] = likely,
    }
}

/// Lays the text out with white space between its tokens.
pub fn spread(random: &mut Random, text: &mut Vec<u8>) {
    let all = tokens(text);
    let often = random.pick(&[3, 30, 90]);
    let mut laid = Vec::new();
    for (place, length) in all {
        while random.chance(often) {
            laid.push(random.pick(b" \n\t\r"));
        }
        laid.extend_from_slice(&text[place..place + length]);
    }
    while random.chance(often) {
        laid.push(b' ');
    }
    *text = laid;
}
