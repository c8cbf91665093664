//! The automaton: sizes and rules.

use crate::interval::Interval;

#[derive(Clone, Copy, Debug, PartialEq, Eq)]
pub enum Action {
    Move,
    Test(usize),
    Assign(usize),
    Push(u64),
    Pop(u64),
}

#[derive(Clone, Copy, Debug)]
pub struct Rule {
    pub from: u64,
    pub to: u64,
    pub action: Action,
    pub interval: Interval,
}

#[derive(Clone, Debug)]
pub struct Model {
    pub states: u64,
    pub start: u64,
    pub target: u64,
    pub labels: u64,
    pub clocks: usize,
    pub rules: Vec<Rule>,
}

impl Model {
    pub fn open(sizes: Sizes) -> Result<Self, u8> {
        let Sizes { states, start, target, labels, clocks } = sizes;
        if !(1..=64).contains(&states) || labels > 16 || clocks > 3 {
            return Err(1);
        }
        if start >= states || target >= states {
            return Err(2);
        }
        let clocks = clocks as usize;
        Ok(Model { states, start, target, labels, clocks, rules: Vec::new() })
    }

    pub fn add(&mut self, row: &[u64; 8]) -> Result<(), u8> {
        let [from, to, kind, argument, lower, lower_flag, upper, upper_flag] = *row;
        if self.rules.len() >= 64 {
            return Err(3);
        }
        if from >= self.states || to >= self.states {
            return Err(4);
        }
        if kind > 4 {
            return Err(5);
        }
        let action = self.action(kind, argument).ok_or(6)?;
        let interval = Interval::read(lower, lower_flag, upper, upper_flag).ok_or(7)?;
        self.rules.push(Rule { from, to, action, interval });
        Ok(())
    }

    fn action(&self, kind: u64, argument: u64) -> Option<Action> {
        let clock = argument < self.clocks as u64;
        let label = (1..=self.labels).contains(&argument);
        match kind {
            0 if argument == 0 => Some(Action::Move),
            1 if clock => Some(Action::Test(argument as usize)),
            2 if clock => Some(Action::Assign(argument as usize)),
            3 if label => Some(Action::Push(argument)),
            4 if label => Some(Action::Pop(argument)),
            _ => None,
        }
    }
}

/// What a model is opened with.
#[derive(Clone, Copy, Debug)]
pub struct Sizes {
    pub states: u64,
    pub start: u64,
    pub target: u64,
    pub labels: u64,
    pub clocks: u64,
}
