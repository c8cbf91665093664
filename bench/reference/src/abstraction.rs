//! What a judge asks of an abstraction, and the untimed one.

use crate::interval::Interval;
use std::fmt::Debug;
use std::hash::Hash;

/// Each list is written to `out`, which is empty before.
pub trait Abstraction {
    type Shape: Copy + Eq + Hash + Debug;

    fn lawful(&self, shape: &Self::Shape) -> bool;
    fn start(&self) -> Self::Shape;
    fn time(&self, shape: &Self::Shape, out: &mut Vec<Self::Shape>);
    fn test(
        &self,
        shape: &Self::Shape,
        clock: usize,
        interval: &Interval,
        out: &mut Vec<Self::Shape>,
    );
    fn assign(
        &self,
        shape: &Self::Shape,
        clock: usize,
        interval: &Interval,
        out: &mut Vec<Self::Shape>,
    );
    fn push(&self, shape: &Self::Shape, interval: &Interval, out: &mut Vec<Self::Shape>);
    /// The shapes of `below` after a frame `above` on it is popped.
    fn pop(
        &self,
        below: &Self::Shape,
        above: &Self::Shape,
        interval: &Interval,
        out: &mut Vec<Self::Shape>,
    );

    /// Whether the second shape has all that the first has.
    fn within(&self, first: &Self::Shape, second: &Self::Shape) -> bool {
        first == second
    }
}

/// One empty shape, which stands for everything and is on every list.
pub struct Untimed;

impl Abstraction for Untimed {
    type Shape = ();

    fn lawful(&self, _: &()) -> bool {
        true
    }

    fn start(&self) {}

    fn time(&self, _: &(), out: &mut Vec<()>) {
        out.push(());
    }

    fn test(&self, _: &(), _: usize, _: &Interval, out: &mut Vec<()>) {
        out.push(());
    }

    fn assign(&self, _: &(), _: usize, _: &Interval, out: &mut Vec<()>) {
        out.push(());
    }

    fn push(&self, _: &(), _: &Interval, out: &mut Vec<()>) {
        out.push(());
    }

    fn pop(&self, _: &(), _: &(), _: &Interval, out: &mut Vec<()>) {
        out.push(());
    }
}
