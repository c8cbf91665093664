//! Documents before they are written as text. All numbers may be wrong.

use reference::model::{Model, Sizes};

pub type Row = Vec<u64>;

#[derive(Clone)]
pub struct Drawn {
    pub states: u64,
    pub start: u64,
    pub target: u64,
    pub labels: u64,
    pub clocks: u64,
    pub rules: Vec<[u64; 8]>,
}

impl Drawn {
    /// No labels, no clocks, no rules; start 0, the last state is the target.
    pub fn bare(states: u64) -> Self {
        Drawn { states, start: 0, target: states - 1, labels: 0, clocks: 0, rules: Vec::new() }
    }

    /// The lawful model that is drawn.
    pub fn model(&self) -> Model {
        let Drawn { states, start, target, labels, clocks, .. } = *self;
        let sizes = Sizes { states, start, target, labels, clocks };
        let mut model = Model::open(sizes).expect("a lawful model");
        self.rules.iter().for_each(|row| model.add(row).expect("a lawful rule"));
        model
    }
}

#[derive(Clone)]
pub enum Object {
    Run { scale: u64, rows: Vec<Row> },
    Table { top: u64, name: &'static str, rows: Vec<Row> },
}

#[derive(Clone)]
pub struct Document {
    pub model: Drawn,
    pub objects: Vec<Object>,
}

fn row(numbers: &[u64]) -> String {
    let numbers: Vec<String> = numbers.iter().map(u64::to_string).collect();
    format!("[{}]", numbers.join(","))
}

fn rows<R: AsRef<[u64]>>(all: &[R]) -> String {
    let all: Vec<String> = all.iter().map(|numbers| row(numbers.as_ref())).collect();
    format!("[{}]", all.join(","))
}

impl Object {
    fn text(&self) -> String {
        match self {
            Object::Run { scale, rows: all } => {
                format!(r#"{{"scale":{scale},"run":{}}}"#, rows(all))
            }
            Object::Table { top, name, rows: all } => {
                format!(r#"{{"top":{top},"abstraction":"{name}","table":{}}}"#, rows(all))
            }
        }
    }
}

impl Document {
    pub fn text(&self) -> String {
        let Drawn { states, start, target, labels, clocks, rules } = &self.model;
        let mut text = format!(
            concat!(
                r#"[{{"states":{},"start":{},"target":{},"#,
                r#""labels":{},"clocks":{},"rules":{}}}"#
            ),
            states,
            start,
            target,
            labels,
            clocks,
            rows(rules)
        );
        for object in &self.objects {
            text.push(',');
            text.push_str(&object.text());
        }
        text.push(']');
        text
    }
}
