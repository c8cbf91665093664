//! From a text to its lines.

use crate::abstraction::Untimed;
use crate::case::{Case, Standing};
use crate::fault::Fault;
use crate::judge::judge;
use crate::model::Model;
use crate::record::{drawing, later, Drawing, Later, Move, Rows};
use crate::regions::Regions;
use crate::table::Search;
use crate::token::Reader;
use std::fmt::Display;

/// So many bytes a text has at most.
pub const LONGEST: usize = 65_536;

/// The lines of a text, each with its line end.
pub fn settle(text: &[u8], search: Search) -> String {
    let mut lines = String::new();
    let outcome = if text.len() > LONGEST {
        Err(Fault::byte(23, LONGEST))
    } else {
        objects(&mut Reader::new(text), search, &mut lines)
    };
    if let Err(fault) = outcome {
        line(&mut lines, &fault);
    }
    lines
}

fn line(lines: &mut String, what: &dyn Display) {
    lines.push_str(&what.to_string());
    lines.push('\n');
}

/// Goes through the objects. What ends the program is an error.
fn objects(reader: &mut Reader, search: Search, lines: &mut String) -> Result<(), Fault> {
    reader.mark(b'[')?;
    if reader.one_of(b"{]")? == b']' {
        return reader.end();
    }
    let mut case = Case::new(draw(&drawing(reader)?)?);
    line(lines, &case.standing.word());
    while reader.one_of(b",]")? == b',' {
        reader.mark(b'{')?;
        let object = later(reader, case.model.clocks)?;
        match perform(&mut case, &object, search) {
            Ok(()) => line(lines, &case.standing.word()),
            Err(fault) => line(lines, &fault),
        }
    }
    reader.end()
}

/// Opens the model and adds its rules.
pub fn draw(drawing: &Drawing) -> Result<Model, Fault> {
    let mut model = Model::open(drawing.sizes).map_err(|number| Fault::row(number, 0))?;
    for (row, rule) in drawing.rules.iter().enumerate() {
        model.add(rule).map_err(|number| Fault::row(number, row + 1))?;
    }
    Ok(model)
}

fn perform(case: &mut Case, object: &Later, search: Search) -> Result<(), Fault> {
    match object {
        Later::Run { scale, moves } => replay(case, *scale, moves),
        Later::Table { top, rows } => {
            match rows {
                Rows::Regions(entries) => {
                    let regions = Regions { clocks: case.model.clocks, top: (*top).min(100) as u8 };
                    judge(&case.model, &regions, *top, entries, search)?;
                }
                Rows::Untimed(entries) => judge(&case.model, &Untimed, *top, entries, search)?,
            }
            case.standing = Standing::Unreachable;
            Ok(())
        }
    }
}

fn replay(case: &mut Case, scale: u64, moves: &[Move]) -> Result<(), Fault> {
    case.begin(scale).map_err(|number| Fault::row(number, 0))?;
    for (row, step) in moves.iter().enumerate() {
        let done = match *step {
            Move::Delay(units) => case.delay(units),
            Move::Fire(rule, value) => case.fire(rule, value),
        };
        done.map_err(|number| Fault::row(number, row + 1))?;
    }
    Ok(())
}
