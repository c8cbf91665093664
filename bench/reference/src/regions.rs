//! Regions: of each item of a frame the whole part, and the order of the
//! fractions. The items of n clocks are the clocks, the age, the kept clocks,
//! the kept age and the elapsed time.

use crate::abstraction::Abstraction;
use crate::interval::Interval;

/// Items of a region of three clocks.
const ITEMS: usize = 9;
/// One more, for the mark at a pop.
const MARKED: usize = ITEMS + 1;
/// Items that two frames share at a pop: three clocks, age and elapsed.
const SHARED: usize = 5;

/// A whole part of top + 1 stands for all larger ones. Rank 0 is no fraction.
#[derive(Clone, Copy, Debug, Default, PartialEq, Eq, Hash, PartialOrd, Ord)]
pub struct Item {
    pub whole: u8,
    pub rank: u8,
}

impl Item {
    /// Whether the values that the item stands for lie in the interval: a
    /// fraction counts as a half.
    fn inside(self, interval: &Interval) -> bool {
        interval.holds(2 * u64::from(self.whole) + u64::from(self.rank > 0), 2)
    }
}

/// Places past the items in use are 0.0.
#[derive(Clone, Copy, Debug, Default, PartialEq, Eq, Hash, PartialOrd, Ord)]
pub struct Region {
    pub items: [Item; ITEMS],
}

/// Makes the ranks gapless, zeros and order kept. Ranks are below 64 here.
fn close(items: &mut [Item]) {
    let used = items.iter().fold(0u64, |used, item| used | 1 << item.rank) & !1;
    for item in items {
        item.rank = (used & (u64::MAX >> (63 - item.rank))).count_ones() as u8;
    }
}

fn greatest_rank(items: &[Item]) -> u8 {
    items.iter().map(|item| item.rank).max().unwrap_or(0)
}

/// The least step of time: all fractions begin, or the greatest become whole.
fn rotate(items: &mut [Item], top: u8) {
    if items.iter().any(|item| item.rank == 0) {
        items.iter_mut().for_each(|item| item.rank += 1);
        return;
    }
    let greatest = greatest_rank(items);
    for item in items.iter_mut().filter(|item| item.rank == greatest) {
        *item = Item { whole: (item.whole + 1).min(top + 1), rank: 0 };
    }
}

/// All that zero or more rotations make of some items, each once. Once all
/// whole parts are top + 1 the rotations go round.
struct Rotations<const N: usize> {
    next: Option<[Item; N]>,
    round: Option<[Item; N]>,
    used: usize,
    top: u8,
}

impl<const N: usize> Rotations<N> {
    fn new(items: [Item; N], used: usize, top: u8) -> Self {
        Rotations { next: Some(items), round: None, used, top }
    }
}

impl<const N: usize> Iterator for Rotations<N> {
    type Item = [Item; N];

    fn next(&mut self) -> Option<[Item; N]> {
        let now = self.next?;
        if self.round.is_none() && now[..self.used].iter().all(|item| item.whole > self.top) {
            self.round = Some(now);
        }
        let mut then = now;
        rotate(&mut then[..self.used], self.top);
        self.next = (self.round != Some(then)).then_some(then);
        Some(now)
    }
}

pub struct Regions {
    pub clocks: usize,
    pub top: u8,
}

impl Regions {
    /// The number of items.
    pub fn width(&self) -> usize {
        2 * self.clocks + 3
    }

    /// Lists every region with an item in the interval at `place`, all other
    /// items as they are. Old ranks get even keys, so there is room between.
    fn fill(&self, mut region: Region, place: usize, interval: &Interval, out: &mut Vec<Region>) {
        let width = self.width();
        region.items[place] = Item::default();
        close(&mut region.items[..width]);
        let greatest = greatest_rank(&region.items);
        region.items.iter_mut().for_each(|item| item.rank *= 2);
        for whole in 0..=self.top + 1 {
            for rank in 0..=2 * greatest + 1 {
                let item = Item { whole, rank };
                if item.inside(interval) {
                    let mut filled = region;
                    filled.items[place] = item;
                    close(&mut filled.items[..width]);
                    out.push(filled);
                }
            }
        }
    }

    /// Of a marked frame below: the clocks, the age and the mark.
    fn shared_below(&self, below: &[Item; MARKED]) -> [Item; SHARED] {
        let mut shared = [Item::default(); SHARED];
        let n = self.clocks;
        shared[..=n].copy_from_slice(&below[..=n]);
        shared[n + 1] = below[self.width()];
        close(&mut shared[..n + 2]);
        shared
    }

    /// Of the frame above: the kept clocks, the kept age and the elapsed.
    fn shared_above(&self, above: &Region) -> [Item; SHARED] {
        let mut shared = [Item::default(); SHARED];
        let n = self.clocks;
        shared[..n + 2].copy_from_slice(&above.items[n + 1..2 * n + 3]);
        close(&mut shared[..n + 2]);
        shared
    }
}

impl Abstraction for Regions {
    type Shape = Region;

    fn lawful(&self, shape: &Region) -> bool {
        let items = &shape.items[..self.width()];
        if items.iter().any(|item| item.whole > self.top + 1 || item.rank > ITEMS as u8) {
            return false;
        }
        let mut closed = *shape;
        close(&mut closed.items[..self.width()]);
        closed == *shape
    }

    fn start(&self) -> Region {
        Region::default()
    }

    fn time(&self, shape: &Region, out: &mut Vec<Region>) {
        let rotations = Rotations::new(shape.items, self.width(), self.top);
        out.extend(rotations.map(|items| Region { items }));
    }

    fn test(&self, shape: &Region, clock: usize, interval: &Interval, out: &mut Vec<Region>) {
        if shape.items[clock].inside(interval) {
            out.push(*shape);
        }
    }

    fn assign(&self, shape: &Region, clock: usize, interval: &Interval, out: &mut Vec<Region>) {
        self.fill(*shape, clock, interval, out);
    }

    fn push(&self, shape: &Region, interval: &Interval, out: &mut Vec<Region>) {
        let n = self.clocks;
        let mut pushed = Region::default();
        pushed.items[..n].copy_from_slice(&shape.items[..n]);
        pushed.items[n + 1..2 * n + 2].copy_from_slice(&shape.items[..=n]);
        self.fill(pushed, n, interval, out);
    }

    fn pop(&self, below: &Region, above: &Region, interval: &Interval, out: &mut Vec<Region>) {
        if !above.items[self.clocks].inside(interval) {
            return;
        }
        let mark = self.width();
        let elapsed = above.items[mark - 1].whole;
        let shared = self.shared_above(above);
        let mut marked = [Item::default(); MARKED];
        marked[..mark].copy_from_slice(&below.items[..mark]);
        for rotated in Rotations::new(marked, mark + 1, self.top) {
            if rotated[mark].whole > elapsed {
                break;
            }
            if self.shared_below(&rotated) == shared {
                Merging::new(self, &rotated, above, out).merge(1, 1, 1);
            }
        }
        out.sort_unstable();
        out.dedup();
    }
}

/// One side of a merging: its ranks from 1, which of them hold a shared item,
/// and the key that each gets in the merged order.
struct Side {
    greatest: usize,
    shared: [bool; MARKED + 1],
    keys: [u8; MARKED + 1],
}

impl Side {
    fn new(greatest: u8, shared: impl Iterator<Item = Item>) -> Self {
        let mut side = Side {
            greatest: usize::from(greatest),
            shared: [false; MARKED + 1],
            keys: [0; MARKED + 1],
        };
        shared.for_each(|item| side.shared[usize::from(item.rank)] = true);
        side
    }

    /// The item with its key in place of its rank.
    fn keyed(&self, item: Item) -> Item {
        Item { whole: item.whole, rank: self.keys[usize::from(item.rank)] }
    }
}

/// Tries every merging of the orders of two frames that agree on what they
/// share, and lists the frame that is left after the pop.
struct Merging<'a> {
    clocks: usize,
    below: &'a [Item; MARKED],
    above: [Item; ITEMS],
    lower: Side,
    upper: Side,
    out: &'a mut Vec<Region>,
}

impl<'a> Merging<'a> {
    fn new(
        regions: &Regions,
        below: &'a [Item; MARKED],
        frame: &Region,
        out: &'a mut Vec<Region>,
    ) -> Self {
        let (n, width) = (regions.clocks, regions.width());
        // The age above has been looked at, and is gone after the pop.
        let mut above = frame.items;
        above[n] = Item::default();
        close(&mut above[..width]);
        let shared_below = below[..=n].iter().chain(&below[width..=width]).copied();
        let lower = Side::new(greatest_rank(&below[..=width]), shared_below);
        let upper = Side::new(greatest_rank(&above), above[n + 1..width].iter().copied());
        Merging { clocks: n, below, above, lower, upper, out }
    }

    /// Gives keys from `key` to the ranks from `low` and `high` on. A rank with
    /// shared items waits for its like on the other side.
    fn merge(&mut self, low: usize, high: usize, key: u8) {
        let more_low = low <= self.lower.greatest;
        let more_high = high <= self.upper.greatest;
        if !more_low && !more_high {
            return self.list();
        }
        if more_low && !self.lower.shared[low] {
            self.lower.keys[low] = key;
            self.merge(low + 1, high, key + 1);
        }
        if more_high && !self.upper.shared[high] {
            self.upper.keys[high] = key;
            self.merge(low, high + 1, key + 1);
        }
        if more_low && more_high && self.lower.shared[low] == self.upper.shared[high] {
            self.lower.keys[low] = key;
            self.upper.keys[high] = key;
            self.merge(low + 1, high + 1, key + 1);
        }
    }

    /// The clocks of the frame above, all else of the frame below.
    fn list(&mut self) {
        let (n, width) = (self.clocks, 2 * self.clocks + 3);
        let mut region = Region::default();
        for place in 0..n {
            region.items[place] = self.upper.keyed(self.above[place]);
        }
        for place in n..width {
            region.items[place] = self.lower.keyed(self.below[place]);
        }
        close(&mut region.items[..width]);
        self.out.push(region);
    }
}

#[cfg(test)]
mod tests {
    use super::*;
    use crate::interval::Upper;

    fn region(items: &[(u8, u8)]) -> Region {
        let mut region = Region::default();
        for (item, &(whole, rank)) in region.items.iter_mut().zip(items) {
            *item = Item { whole, rank };
        }
        region
    }

    #[test]
    fn rotates_one_item_to_the_next_whole() {
        let mut items = region(&[(1, 1), (0, 2), (0, 0), (0, 0), (0, 0)]).items;
        rotate(&mut items[..5], 1);
        assert_eq!(items, region(&[(1, 2), (0, 3), (0, 1), (0, 1), (0, 1)]).items);
        rotate(&mut items[..5], 1);
        assert_eq!(items, region(&[(1, 2), (1, 0), (0, 1), (0, 1), (0, 1)]).items);
    }

    /// The region of a frame at a scale.
    fn region_of(regions: &Regions, frame: &[u64], scale: u64) -> Region {
        let mut region = Region::default();
        for (place, &value) in frame.iter().enumerate() {
            let whole = (value / scale).min(u64::from(regions.top) + 1) as u8;
            region.items[place] = Item { whole, rank: (value % scale) as u8 };
        }
        close(&mut region.items[..frame.len()]);
        assert!(regions.lawful(&region));
        region
    }

    const ALWAYS: Interval = Interval { lower: 0, above_lower: false, upper: Upper::Unbounded };

    fn popped(regions: &Regions, below: &Region, above: &Region) -> Vec<Region> {
        let mut out = Vec::new();
        regions.pop(below, above, &ALWAYS, &mut out);
        out
    }

    #[test]
    fn a_pop_lists_the_regions_of_all_joined_frames() {
        let mut state = 1u64;
        let mut random = |bound: u64| {
            state = state.wrapping_mul(6364136223846793005).wrapping_add(1442695040888963407);
            (state >> 33) % bound
        };
        for _ in 0..20_000 {
            let n = random(4) as usize;
            let regions = Regions { clocks: n, top: random(3) as u8 };
            let scale = 1 + random(12);
            let below: Vec<u64> = (0..2 * n + 3).map(|_| random(4 * scale)).collect();
            let elapsed = random(4 * scale);
            let grown = |value: &u64| value + elapsed;
            let mut above: Vec<u64> = (0..=n).map(|_| random(4 * scale)).collect();
            let mut joined = above[..n].to_vec();
            joined.extend(below[n..].iter().map(grown));
            above.extend(below[..=n].iter().map(grown));
            above.push(elapsed);
            let [s, u, j] = [below, above, joined].map(|f| region_of(&regions, &f, scale));
            assert!(popped(&regions, &s, &u).contains(&j));
        }
    }

    #[test]
    fn without_clocks_a_pop_lists_no_other_regions() {
        let regions = Regions { clocks: 0, top: 0 };
        let scale = 5;
        let mut joined: std::collections::HashMap<_, Vec<Region>> = Default::default();
        for number in 0..10u64.pow(3) {
            let below = [number % 10, number / 10 % 10, number / 100];
            for elapsed in 0..3 * scale {
                let above = [0, below[0] + elapsed, elapsed];
                let pair = (region_of(&regions, &below, scale), region_of(&regions, &above, scale));
                let join = below.map(|value| value + elapsed);
                joined.entry(pair).or_default().push(region_of(&regions, &join, scale));
            }
        }
        for ((below, above), mut all) in joined {
            all.sort_unstable();
            all.dedup();
            assert_eq!(popped(&regions, &below, &above), all);
        }
    }

    #[test]
    fn a_pop_tries_all_mergings() {
        let regions = Regions { clocks: 1, top: 1 };
        let below = region(&[(0, 0), (0, 0), (0, 1), (0, 1), (0, 1)]);
        let above = region(&[(0, 1), (0, 0), (0, 0), (0, 0), (0, 0)]);
        let point = Interval { lower: 0, above_lower: false, upper: Upper::Upto(0) };
        let mut out = Vec::new();
        regions.pop(&below, &above, &point, &mut out);
        let mut want = vec![
            region(&[(0, 1), (0, 0), (0, 1), (0, 1), (0, 1)]),
            region(&[(0, 1), (0, 0), (0, 2), (0, 2), (0, 2)]),
            region(&[(0, 2), (0, 0), (0, 1), (0, 1), (0, 1)]),
        ];
        want.sort_unstable();
        assert_eq!(out, want);
    }
}
