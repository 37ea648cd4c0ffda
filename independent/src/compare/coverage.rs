//! How often the points of a comparison were reached. A comparison lists its points, and fails if
//! it leaves one out; nothing else is counted.

use std::collections::BTreeMap;

/// Lists of points as one.
pub const fn joined<const COUNT: usize>(parts: &[&[&'static str]]) -> [&'static str; COUNT] {
    let mut all = [""; COUNT];
    let (mut part, mut inside, mut place) = (0, 0, 0);
    while place < COUNT {
        if inside == parts[part].len() {
            (part, inside) = (part + 1, 0);
            continue;
        }
        all[place] = parts[part][inside];
        (inside, place) = (inside + 1, place + 1);
    }
    all
}

#[derive(Clone, Default)]
pub struct Coverage {
    counts: BTreeMap<&'static str, u64>,
}

impl Coverage {
    /// The listed points, none of them reached yet.
    pub fn new(points: &[&'static str]) -> Coverage {
        Coverage {
            counts: points.iter().map(|&point| (point, 0)).collect(),
        }
    }

    /// Counts a point; a name that is not listed counts nothing.
    pub fn note(&mut self, name: &str) {
        if let Some(count) = self.counts.get_mut(name) {
            *count += 1;
        }
    }

    pub fn count(&self, point: &str) -> u64 {
        self.counts.get(point).copied().unwrap_or(0)
    }

    /// Those of the points that were not reached.
    pub fn missing(&self, points: &[&'static str]) -> Vec<&'static str> {
        let unseen = |point: &&'static str| self.count(point) == 0;
        points.iter().copied().filter(unseen).collect()
    }

    pub fn add(&mut self, other: &Coverage) {
        for (point, count) in &other.counts {
            *self.counts.entry(point).or_default() += count;
        }
    }
}
