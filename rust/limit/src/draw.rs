//! The arguments of a random call, drawn so that most calls have something to do and every refusal comes up.

use crate::cases::Case;
use calls::rng::Rng;

/// What is drawn from: a sheet as it stands, which need not be one.
pub struct View<'a> {
    n: usize,
    /// The number of vertices to draw from.
    m: usize,
    order: &'a [usize],
    sheet: &'a [u64],
}

impl<'a> View<'a> {
    pub fn new(case: &'a Case, sheet: &'a [u64]) -> View<'a> {
        View { n: case.n, m: case.order.len(), order: &case.order, sheet }
    }

    fn row(&self, i: usize) -> u64 {
        self.sheet.get(i).copied().unwrap_or(0)
    }

    fn count(&self, from: usize, to: usize) -> u64 {
        let place = self.n.saturating_mul(from).saturating_add(self.n).saturating_add(to);
        self.sheet.get(place).copied().unwrap_or(0)
    }

    fn below_m(&self) -> u64 {
        u64::MAX >> (64 - self.m)
    }

    /// The edges that a plan of this sheet writes.
    fn edge_count(&self) -> usize {
        (0..self.m).map(|i| self.row(i).count_ones() as usize).sum()
    }

    /// A vertex, seldom one that isn't there.
    pub fn vertex(&self, rng: &mut Rng) -> usize {
        match rng.percent(97) {
            true => rng.below(self.m),
            false => rng.pick(&[self.n, self.n.wrapping_add(1), 63, 64, 255, 1 << 32, usize::MAX]),
        }
    }

    /// An edge that is there, if one is found, or seldom any two vertices.
    pub fn edge_there(&self, rng: &mut Rng) -> (usize, usize) {
        for _ in 0..8 {
            let from = rng.below(self.m);
            if self.row(from) & self.below_m() != 0 && rng.percent(95) {
                return (from, one_of(rng, self.row(from) & self.below_m()));
            }
        }
        (self.vertex(rng), self.vertex(rng))
    }

    /// Two vertices along the order, or seldom any two.
    pub fn edge_to_insert(&self, rng: &mut Rng) -> (usize, usize) {
        for _ in 0..8 {
            let (a, b) = (rng.below(self.m), rng.below(self.m));
            let (from, to) = (self.order[a.min(b)], self.order[a.max(b)]);
            if a != b && self.row(from) >> to & 1 == 0 && rng.percent(95) {
                return (from, to);
            }
        }
        (self.vertex(rng), self.vertex(rng))
    }

    /// A vertex and masks of absent edges along the order, seldom with another bit.
    pub fn edges_to_insert(&self, rng: &mut Rng) -> (usize, u64, u64) {
        let place = rng.below(self.m);
        let v = self.order[place];
        let (mut before, mut after) = (0, 0);
        self.order[..place]
            .iter()
            .filter(|&&a| self.row(a) >> v & 1 == 0)
            .for_each(|&a| before |= 1 << a);
        self.order[place + 1..]
            .iter()
            .filter(|&&b| self.row(v) >> b & 1 == 0)
            .for_each(|&b| after |= 1 << b);
        self.masks(rng, v, before, after)
    }

    /// A vertex and masks of edges that are there, seldom with another bit.
    pub fn edges_to_delete(&self, rng: &mut Rng) -> (usize, u64, u64) {
        let v = rng.below(self.m);
        let before = (0..self.m)
            .filter(|&a| self.row(a) >> v & 1 == 1)
            .fold(0, |mask, a| mask | 1 << a);
        self.masks(rng, v, before, self.row(v) & self.below_m())
    }

    fn masks(&self, rng: &mut Rng, v: usize, before: u64, after: u64) -> (usize, u64, u64) {
        let (mut before, mut after) = (some_of(rng, before), some_of(rng, after));
        match rng.below(100) {
            0..4 => before ^= 1 << rng.below(64),
            4..8 => after ^= 1 << rng.below(64),
            8..10 => before ^= 1 << v,
            10..12 => after ^= 1 << v,
            12..15 => after |= some_of(rng, before),
            15 => (before, after) = (rng.word(), rng.word()),
            16..18 => return (self.vertex(rng), before, after),
            _ => {}
        }
        (v, before, after)
    }

    /// From, to, and a number that is below the count, if the count isn't 0, or seldom any.
    pub fn path_number(&self, rng: &mut Rng) -> (usize, usize, u64) {
        let (mut from, mut to) = (self.vertex(rng), self.vertex(rng));
        for _ in 0..8 {
            if self.count(from, to) > 0 {
                break;
            }
            (from, to) = (rng.below(self.m), rng.below(self.m));
        }
        let count = self.count(from, to);
        match rng.percent(92) && count > 0 {
            true => (from, to, rng.word() % count),
            false => (from, to, rng.pick(&[count, count.wrapping_add(1), u64::MAX])),
        }
    }

    pub fn room_for_path(&self, rng: &mut Rng) -> Vec<u8> {
        let length = if rng.percent(95) {
            self.m + rng.below(9)
        } else {
            rng.below(self.m)
        };
        rng.bytes(length)
    }

    /// A walk along edges, seldom with a wrong byte, none at all, or too long.
    pub fn path(&self, rng: &mut Rng) -> Vec<u8> {
        if rng.percent(3) {
            let length = rng.pick(&[0, self.m + 1, 70, 300]);
            return (0..length).map(|_| rng.below(self.m) as u8).collect();
        }
        let mut path = vec![rng.below(self.m) as u8];
        while path.len() < 66 && rng.percent(90) {
            let row = self.row(path[path.len() - 1] as usize) & self.below_m();
            if row == 0 {
                break;
            }
            path.push(one_of(rng, row) as u8);
        }
        if rng.percent(8) {
            let (place, any) = (rng.below(path.len()), rng.below(self.m) as u8);
            path[place] = rng.pick(&[0, 1, self.m as u8, 255, any]);
        }
        path
    }

    /// Records that can be applied, mostly, and seldom one that is broken or refused.
    pub fn plan(&self, rng: &mut Rng) -> Vec<u8> {
        let records = if rng.percent(1) { 4090 + rng.below(10) } else { rng.below(40) };
        let mut rows: Vec<u64> = (0..self.m).map(|i| self.row(i)).collect();
        let mut plan = Vec::new();
        for _ in 0..records {
            let (from, to) = match rng.percent(99) {
                true => self.edge_to_insert(rng),
                false => (self.vertex(rng), self.vertex(rng)),
            };
            let row = rows.get(from).copied().unwrap_or(0);
            let there = to < 64 && row >> to & 1 == 1;
            let letter = if there != rng.percent(1) { 'T' } else { 'L' };
            rows.iter_mut()
                .skip(from)
                .take(usize::from(to < 64))
                .for_each(|row| *row ^= 1 << to);
            plan.extend(format!("{letter} {:02} {:02}\n", from % 100, to % 100).bytes());
        }
        if rng.percent(25) && !plan.is_empty() {
            let (place, any) = (rng.below(plan.len()), rng.word() as u8);
            plan[place] = rng.pick(&[b'L', b'T', b' ', b'0', b'9', b':', b'/', b'\n', b'\r', 0, any]);
        }
        if rng.percent(4) {
            plan.truncate(plan.len().saturating_sub(1 + rng.below(7)));
        }
        plan
    }

    pub fn room_for_plan(&self, rng: &mut Rng) -> Vec<u8> {
        let (exact, more) = (8 * self.edge_count(), rng.below(20));
        let length = rng.pick(&[exact, exact, exact + more, exact.saturating_sub(1), 8 * 2016]);
        rng.bytes(length)
    }
}

/// A bit of the mask, which is not 0.
fn one_of(rng: &mut Rng, mask: u64) -> usize {
    let mut left = mask;
    (0..rng.below(mask.count_ones() as usize)).for_each(|_| left &= left - 1);
    left.trailing_zeros() as usize
}

/// All, many, few, one or none of the mask's bits.
fn some_of(rng: &mut Rng, mask: u64) -> u64 {
    match rng.below(10) {
        0 => 0,
        1 => mask,
        2..5 => mask & rng.word(),
        5..8 => mask & rng.word() & rng.word(),
        _ if mask != 0 => 1 << one_of(rng, mask),
        _ => 0,
    }
}
