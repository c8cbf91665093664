//! Intervals with whole bounds.

#[derive(Clone, Copy, Debug, PartialEq, Eq)]
pub enum Upper {
    Upto(u64),
    Below(u64),
    Unbounded,
}

#[derive(Clone, Copy, Debug, PartialEq, Eq)]
pub struct Interval {
    pub lower: u64,
    pub above_lower: bool,
    pub upper: Upper,
}

impl Interval {
    /// Reads lower, lower flag, upper and upper flag.
    pub fn read(lower: u64, lower_flag: u64, upper: u64, upper_flag: u64) -> Option<Self> {
        let above_lower = match lower_flag {
            0 => false,
            1 => true,
            _ => return None,
        };
        let end = match upper_flag {
            0 => Upper::Upto(upper),
            1 => Upper::Below(upper),
            2 if upper == 0 => Upper::Unbounded,
            _ => return None,
        };
        let fits = lower <= 15 && upper <= 15;
        fits.then_some(Interval { lower, above_lower, upper: end })
    }

    /// Whether `value`, counted in parts of 1/scale, lies in the interval.
    pub fn holds(&self, value: u64, scale: u64) -> bool {
        let low = self.lower * scale;
        let enough = if self.above_lower { value > low } else { value >= low };
        enough
            && match self.upper {
                Upper::Upto(bound) => value <= bound * scale,
                Upper::Below(bound) => value < bound * scale,
                Upper::Unbounded => true,
            }
    }

    /// The greatest finite bound.
    pub fn greatest(&self) -> u64 {
        match self.upper {
            Upper::Upto(bound) | Upper::Below(bound) => self.lower.max(bound),
            Upper::Unbounded => self.lower,
        }
    }
}
