//! The image set and the end set unpacked for a walk: the record that a choice selects, and which leaves are equal.
use crate::sets::{Inner, Set};
use std::collections::HashMap;

pub const LEVELS: usize = 21;
pub const NONE: u16 = u16::MAX;

/// One set. Levels count from 0 here; records of inner states and of leaf states are numbered apart.
pub struct Side {
    /// The first state of each level, and one past the last state.
    pub first: Vec<usize>,
    pub inner: Vec<Inner>,
    /// The first inner record of each level, and one past the last.
    pub first_inner: Vec<usize>,
    /// The state of each leaf record.
    pub leaf_state: Vec<u16>,
    /// At 32 s + c the record that choice c selects of state s, or NONE.
    pub record: Vec<u16>,
    /// The choices of each state.
    pub choices: Vec<u32>,
}

pub struct Tables {
    pub n: usize,
    pub image: Side,
    pub end: Side,
    /// For each leaf record of the image the number of its amplitude.
    class: Vec<u16>,
    /// For each amplitude and each end state of the last level the choices under which they are equal.
    equal: Vec<u32>,
}

impl Side {
    fn new(set: &Set) -> Side {
        let mut first = vec![0];
        for &count in &set.levels {
            first.push(first.last().unwrap() + count as usize);
        }
        let states = first[set.n + 1];
        let mut side = Side {
            first_inner: first
                .iter()
                .map(|&q| set.inner.partition_point(|r| (r.state as usize) < q))
                .collect(),
            first,
            inner: set.inner.clone(),
            leaf_state: set.leaves.iter().map(|r| r.state).collect(),
            record: vec![NONE; 32 * states],
            choices: vec![0; states],
        };
        for (x, r) in set.inner.iter().enumerate() {
            side.select(r.state as usize, r.mask, x as u16);
        }
        for (x, r) in set.leaves.iter().enumerate() {
            side.select(r.state as usize, r.mask, x as u16);
        }
        side
    }

    fn select(&mut self, state: usize, mask: u32, record: u16) {
        self.choices[state] |= mask;
        let mut rest = mask;
        while rest != 0 {
            self.record[32 * state + rest.trailing_zeros() as usize] = record;
            rest &= rest - 1;
        }
    }

    pub fn width(&self, level: usize) -> usize {
        self.first[level + 1] - self.first[level]
    }
}

/// The one form of an amplitude that √2 does not divide.
fn reduced(k: u8, amplitude: [i32; 4]) -> (i32, [i64; 4]) {
    let mut k = k as i32;
    let mut x = amplitude.map(i64::from);
    if x == [0; 4] {
        return (0, x);
    }
    loop {
        let [a, b, c, d] = x;
        let times = [b - d, a + c, b + d, c - a];
        if times.iter().any(|v| v % 2 != 0) {
            return (k, x);
        }
        x = times.map(|v| v / 2);
        k -= 1;
    }
}

impl Tables {
    pub fn new(image: &Set, end: &Set) -> Tables {
        let mut numbers = HashMap::new();
        let mut class = Vec::with_capacity(image.leaves.len());
        for r in &image.leaves {
            let next = numbers.len() as u16;
            class.push(*numbers.entry(reduced(image.k, r.amplitude)).or_insert(next));
        }
        let side = Side::new(end);
        let (first, width) = (side.first[end.n], side.width(end.n));
        let mut equal = vec![0; numbers.len() * width];
        for r in &end.leaves {
            if let Some(&number) = numbers.get(&reduced(end.k, r.amplitude)) {
                equal[number as usize * width + r.state as usize - first] |= r.mask;
            }
        }
        Tables {
            n: image.n,
            image: Side::new(image),
            end: side,
            class,
            equal,
        }
    }

    /// The choices under which the end state, the q-th of the last level, has the amplitude of the image's leaf record x.
    pub fn equal(&self, x: usize, q: usize) -> u32 {
        self.equal[self.class[x] as usize * self.end.width(self.n) + q]
    }
}
