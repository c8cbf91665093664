//! The objects of the text. Each is read to its closing brace.

use crate::fault::Fault;
use crate::judge::Entry;
use crate::model::Sizes;
use crate::regions::{Item, Region};
use crate::token::Reader;

/// The first object.
pub struct Drawing {
    pub sizes: Sizes,
    pub rules: Vec<[u64; 8]>,
}

/// A row of a run.
pub enum Move {
    Delay(u64),
    Fire(u64, u64),
}

/// The rows of a table, by the abstraction that was named.
pub enum Rows {
    Regions(Vec<Entry<Region>>),
    Untimed(Vec<Entry<()>>),
}

/// A later object.
pub enum Later {
    Run { scale: u64, moves: Vec<Move> },
    Table { top: u64, rows: Rows },
}

fn member(reader: &mut Reader, name: &str) -> Result<(), Fault> {
    reader.name(&[name])?;
    reader.mark(b':')
}

fn next_member(reader: &mut Reader, name: &str) -> Result<(), Fault> {
    reader.mark(b',')?;
    member(reader, name)
}

/// An array of rows. `row` reads one from behind its opening bracket.
fn rows<'a, T>(
    reader: &mut Reader<'a>,
    mut row: impl FnMut(&mut Reader<'a>) -> Result<T, Fault>,
) -> Result<Vec<T>, Fault> {
    let mut all = Vec::new();
    reader.mark(b'[')?;
    if reader.one_of(b"[]")? == b']' {
        return Ok(all);
    }
    loop {
        all.push(row(reader)?);
        if reader.one_of(b",]")? == b']' {
            return Ok(all);
        }
        reader.mark(b'[')?;
    }
}

/// The numbers of a row, as many as `row` has, with the closing bracket.
fn numbers(reader: &mut Reader, row: &mut [u64]) -> Result<(), Fault> {
    for (place, number) in row.iter_mut().enumerate() {
        if place > 0 {
            reader.mark(b',')?;
        }
        *number = reader.number()?;
    }
    reader.mark(b']')
}

fn rule(reader: &mut Reader) -> Result<[u64; 8], Fault> {
    let mut row = [0; 8];
    numbers(reader, &mut row)?;
    Ok(row)
}

/// Reads the first object from behind its opening brace.
pub fn drawing(reader: &mut Reader) -> Result<Drawing, Fault> {
    member(reader, "states")?;
    let states = reader.number()?;
    next_member(reader, "start")?;
    let start = reader.number()?;
    next_member(reader, "target")?;
    let target = reader.number()?;
    next_member(reader, "labels")?;
    let labels = reader.number()?;
    next_member(reader, "clocks")?;
    let clocks = reader.number()?;
    next_member(reader, "rules")?;
    let rules = rows(reader, rule)?;
    reader.mark(b'}')?;
    Ok(Drawing { sizes: Sizes { states, start, target, labels, clocks }, rules })
}

fn step(reader: &mut Reader) -> Result<Move, Fault> {
    let first = reader.number()?;
    if reader.one_of(b",]")? == b']' {
        return Ok(Move::Delay(first));
    }
    let value = reader.number()?;
    reader.mark(b']')?;
    Ok(Move::Fire(first, value))
}

fn run(reader: &mut Reader) -> Result<Later, Fault> {
    let scale = reader.number()?;
    next_member(reader, "run")?;
    let moves = rows(reader, step)?;
    Ok(Later::Run { scale, moves })
}

fn untimed_entry(reader: &mut Reader) -> Result<Entry<()>, Fault> {
    let mut row = [0; 3];
    numbers(reader, &mut row)?;
    let [root, state, label] = row;
    Ok(Entry { root, state, label, shape: () })
}

/// A number of an item; those too large for any lawful region become 255.
fn small(number: u64) -> u8 {
    u8::try_from(number).unwrap_or(u8::MAX)
}

fn region_entry(reader: &mut Reader, clocks: usize) -> Result<Entry<Region>, Fault> {
    let mut row = [0; 3 + 2 * 9];
    let items = 2 * clocks + 3;
    numbers(reader, &mut row[..3 + 2 * items])?;
    let mut shape = Region::default();
    for (item, pair) in shape.items.iter_mut().zip(row[3..].chunks(2)).take(items) {
        *item = Item { whole: small(pair[0]), rank: small(pair[1]) };
    }
    Ok(Entry { root: row[0], state: row[1], label: row[2], shape })
}

fn table(reader: &mut Reader, clocks: usize) -> Result<Later, Fault> {
    let top = reader.number()?;
    next_member(reader, "abstraction")?;
    let regions = reader.name(&["regions", "untimed"])? == 0;
    next_member(reader, "table")?;
    let rows = if regions {
        Rows::Regions(rows(reader, |reader| region_entry(reader, clocks))?)
    } else {
        Rows::Untimed(rows(reader, untimed_entry)?)
    };
    Ok(Later::Table { top, rows })
}

/// Reads a later object from behind its opening brace.
pub fn later(reader: &mut Reader, clocks: usize) -> Result<Later, Fault> {
    let is_run = reader.name(&["scale", "top"])? == 0;
    reader.mark(b':')?;
    let object = if is_run { run(reader)? } else { table(reader, clocks)? };
    reader.mark(b'}')?;
    Ok(object)
}
