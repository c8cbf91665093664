//! A model with a run in progress and a standing.

use crate::model::{Action, Model, Rule};

/// No number of a run is greater.
pub const LARGEST: u64 = 1_000_000_000_000_000;
/// So many symbols the stack of a run holds.
pub const DEEPEST: usize = 128;

#[derive(Clone, Copy, Debug, PartialEq, Eq)]
pub enum Standing {
    Undecided,
    Reachable,
    Unreachable,
}

impl Standing {
    pub fn word(self) -> &'static str {
        match self {
            Standing::Undecided => "undecided",
            Standing::Reachable => "reachable",
            Standing::Unreachable => "unreachable",
        }
    }
}

#[derive(Clone, Debug)]
pub struct Run {
    pub scale: u64,
    pub state: u64,
    pub clocks: Vec<u64>,
    pub stack: Vec<(u64, u64)>,
}

impl Run {
    fn delay(&mut self, units: u64) -> Result<(), u8> {
        let room = LARGEST.checked_sub(units).ok_or(13u8)?;
        let ages = self.stack.iter().map(|(_, age)| age);
        if self.clocks.iter().chain(ages).any(|&value| value > room) {
            return Err(13);
        }
        self.clocks.iter_mut().for_each(|clock| *clock += units);
        self.stack.iter_mut().for_each(|(_, age)| *age += units);
        Ok(())
    }

    fn fire(&mut self, rule: &Rule, value: u64) -> Result<(), u8> {
        let used = matches!(rule.action, Action::Assign(_) | Action::Push(_));
        if used && value > LARGEST {
            return Err(13);
        }
        if self.state != rule.from {
            return Err(14);
        }
        self.act(rule, value)?;
        self.state = rule.to;
        Ok(())
    }

    fn act(&mut self, rule: &Rule, value: u64) -> Result<(), u8> {
        let inside = |number| rule.interval.holds(number, self.scale);
        match rule.action {
            Action::Move => {}
            Action::Test(clock) if inside(self.clocks[clock]) => {}
            Action::Assign(clock) if inside(value) => self.clocks[clock] = value,
            Action::Push(_) if self.stack.len() >= DEEPEST => return Err(16),
            Action::Push(label) if inside(value) => self.stack.push((label, value)),
            Action::Pop(label) => match self.stack.last() {
                Some(&(top, age)) if top == label => {
                    if !inside(age) {
                        return Err(17);
                    }
                    self.stack.pop();
                }
                _ => return Err(15),
            },
            _ => return Err(17),
        }
        Ok(())
    }
}

#[derive(Clone, Debug)]
pub struct Case {
    pub model: Model,
    pub run: Option<Run>,
    pub standing: Standing,
}

impl Case {
    pub fn new(model: Model) -> Self {
        Case { model, run: None, standing: Standing::Undecided }
    }

    pub fn begin(&mut self, scale: u64) -> Result<(), u8> {
        if !(1..=1_000_000).contains(&scale) {
            return Err(11);
        }
        let clocks = vec![0; self.model.clocks];
        let state = self.model.start;
        self.run = Some(Run { scale, state, clocks, stack: Vec::new() });
        self.look();
        Ok(())
    }

    pub fn delay(&mut self, units: u64) -> Result<(), u8> {
        self.run.as_mut().ok_or(12u8)?.delay(units)?;
        self.look();
        Ok(())
    }

    pub fn fire(&mut self, rule: u64, value: u64) -> Result<(), u8> {
        let place = usize::try_from(rule).map_err(|_| 8u8)?;
        let rule = self.model.rules.get(place).ok_or(8u8)?;
        self.run.as_mut().ok_or(12u8)?.fire(rule, value)?;
        self.look();
        Ok(())
    }

    /// A run that is in the target makes the case reachable.
    fn look(&mut self) {
        if self.run.as_ref().is_some_and(|run| run.state == self.model.target) {
            self.standing = Standing::Reachable;
        }
    }
}
