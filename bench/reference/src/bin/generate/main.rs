//! Writes texts to compare and to time programs on.
//!
//!     generate SEED COUNT DIR [--no-tables]
//!     generate --inputs DIR

mod boundary;
mod damage;
mod document;
mod inputs;
mod models;
mod random;
mod solver;

use document::{Document, Object};
use models::Evidence;
use random::Random;
use reference::settle::{settle, LONGEST};
use reference::table::Search;
use solver::Origin;
use std::path::Path;
use std::{fs, io};

/// A model with one to three runs.
fn with_runs(random: &mut Random) -> Document {
    let clocks = random.below(4);
    let top = random.below(4);
    let model = models::model(random, clocks, top);
    let objects = (0..random.range(1, 3)).map(|_| models::run(random, &model)).collect();
    Document { model, objects }
}

/// Where the first fault of a damaged table is wanted.
#[derive(Clone, Copy)]
enum Goal {
    Anywhere,
    Time,
    Rule,
    Pop,
    LatePop,
}

impl Goal {
    fn met(self, evidence: &Evidence) -> bool {
        let document = Document { model: evidence.drawn.clone(), objects: vec![evidence.object()] };
        let lines = settle(document.text().as_bytes(), Search::Index);
        let words: Vec<&str> = lines.lines().nth(1).unwrap_or("").split(' ').collect();
        match (self, &words[..]) {
            (Goal::Anywhere, _) => true,
            (Goal::Time, ["refused", "22", _, entry, "64", _]) => *entry != "0",
            (Goal::Rule, ["refused", "22", _, entry, rule, "2048"]) => {
                *entry != "0" && *rule != "64"
            }
            (Goal::Pop, ["refused", "22", _, _, _, above]) => *above != "2048",
            (Goal::LatePop, ["refused", "22", _, entry, _, above]) => {
                *entry != "0" && *above != "2048"
            }
            _ => false,
        }
    }
}

/// Tries some damages for one that meets a goal.
fn damage_at(random: &mut Random, evidence: &Evidence) -> Evidence {
    let goals = [Goal::Anywhere, Goal::Time, Goal::Rule, Goal::Pop, Goal::LatePop, Goal::LatePop];
    let goal = random.pick(&goals);
    let mut damaged = evidence.clone();
    for _ in 0..30 {
        damaged = evidence.clone();
        damage::table(random, &mut damaged);
        if goal.met(&damaged) {
            break;
        }
    }
    damaged
}

/// A model with a table, good or damaged, and perhaps runs around it.
fn with_table(random: &mut Random, most: usize, damaged: bool) -> Document {
    let with_pops = random.chance(60);
    let mut evidence = models::evidence(random, most);
    while with_pops && !evidence.solved.origins.contains(&Origin::Pop) {
        evidence = models::evidence(random, most);
    }
    if random.chance(60) {
        damage::shuffle(random, &mut evidence.solved.rows, &mut evidence.solved.origins);
    }
    if damaged {
        evidence = damage_at(random, &evidence);
    }
    let mut objects = vec![evidence.object()];
    if random.chance(30) {
        objects.insert(0, models::run(random, &evidence.drawn));
    }
    if random.chance(30) {
        objects.push(models::run(random, &evidence.drawn));
    }
    Document { model: evidence.drawn, objects }
}

fn document(random: &mut Random, tables: bool) -> Document {
    if !tables || random.chance(50) {
        return with_runs(random);
    }
    let damaged = random.chance(50);
    with_table(random, 40, damaged)
}

/// Leaves out tables that make the text too long.
fn shortened(mut document: Document) -> Vec<u8> {
    let mut text = document.text();
    if text.len() > LONGEST {
        document.objects.retain(|object| matches!(object, Object::Run { .. }));
        text = document.text();
    }
    text.into_bytes()
}

/// The text at a place of the stream. Each tenth has its own kind.
fn text(seed: u64, place: u64, tables: bool, catalogue: &[String]) -> Vec<u8> {
    let mut random = Random::new(seed, place);
    match place % 10 {
        part @ 0..=2 => {
            let turn = place / 10 * 3 + part;
            catalogue[turn as usize % catalogue.len()].clone().into_bytes()
        }
        3 => with_runs(&mut random).text().into_bytes(),
        4 if tables => shortened(with_table(&mut random, 300, false)),
        5 | 6 if tables => shortened(with_table(&mut random, 150, true)),
        7 if tables => {
            let damaged = random.chance(60);
            shortened(with_table(&mut random, 1200, damaged))
        }
        8 => {
            let mut text = shortened(document(&mut random, tables));
            damage::spread(&mut random, &mut text);
            if random.chance(50) {
                damage::token(&mut random, &mut text);
            }
            text
        }
        _ => {
            let mut text = shortened(document(&mut random, tables));
            if random.chance(50) {
                damage::token(&mut random, &mut text);
            } else {
                damage::byte(&mut random, &mut text);
            }
            text
        }
    }
}

fn write_texts(seed: u64, count: u64, folder: &Path, tables: bool) -> io::Result<()> {
    let mut catalogue = boundary::catalogue(tables);
    let mut random = Random::new(seed, u64::MAX);
    for place in (1..catalogue.len()).rev() {
        catalogue.swap(place, random.place(place + 1));
    }
    for place in 0..count {
        let text = text(seed, place, tables, &catalogue);
        fs::write(folder.join(format!("{place:04}.json")), text)?;
    }
    Ok(())
}

fn write_inputs(folder: &Path) -> io::Result<()> {
    for input in inputs::inputs() {
        fs::write(folder.join(format!("{}.json", input.name)), input.text)?;
    }
    Ok(())
}

fn main() -> io::Result<()> {
    let arguments: Vec<String> = std::env::args().skip(1).collect();
    let words: Vec<&str> = arguments.iter().map(String::as_str).collect();
    let number = |word: &str| word.parse::<u64>().ok();
    match words[..] {
        ["--inputs", folder] => {
            fs::create_dir_all(folder)?;
            write_inputs(Path::new(folder))
        }
        [seed, count, folder, ref rest @ ..]
            if number(seed).is_some() && number(count).is_some() =>
        {
            fs::create_dir_all(folder)?;
            let (seed, count) = (number(seed).unwrap_or(0), number(count).unwrap_or(0));
            write_texts(seed, count, Path::new(folder), !rest.contains(&"--no-tables"))
        }
        _ => {
            eprintln!("generate SEED COUNT DIR [--no-tables] | generate --inputs DIR");
            std::process::exit(2)
        }
    }
}
