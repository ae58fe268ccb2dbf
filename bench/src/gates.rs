//! Gates in the usual Rust way: the records of a level in vectors, the next level's states told apart by a HashMap.
use crate::sets::{
    read_set, write_set, Inner, Leaf, Set, MOST_INNER, MOST_LEAVES, MOST_STATES, RANGE,
};
use std::collections::HashMap;
use std::ops::Range;

#[derive(Clone, Copy)]
pub enum Action {
    /// 0 is X, 2 is Y: (right shifted 8 - j, left shifted j).
    Flip(u8),
    Phase(u8),
    Hadamard,
}

#[derive(Clone, Copy)]
pub struct Gate {
    pub action: Action,
    pub target: usize,
    pub control: Option<usize>,
}

#[derive(Debug, PartialEq)]
pub struct Refusal {
    pub number: u8,
    pub source: u8,
    pub place: u32,
}

#[derive(Clone, Copy, PartialEq, Eq, Hash)]
enum Kind {
    Plain,
    Inside,
    PairL,
    PairR,
    Shifted(u8),
}

/// A state of the result: its kind and one or two old numbers.
type Key = (Kind, u16, u16);

fn plain(q: u16) -> Key {
    (Kind::Plain, q, 0)
}

fn shifted(j: u8, q: u16) -> Key {
    if j % 8 == 0 {
        plain(q)
    } else {
        (Kind::Shifted(j), q, 0)
    }
}

/// The gate of a circuit of exactly one record, or (number, place).
pub fn read_gate(b: &[u8], n: usize) -> Result<Gate, (u8, u32)> {
    if b.len() != 6 {
        return Err((11, 0));
    }
    let (code, target, control) = (b[2], b[3] as usize, b[4] as usize);
    let qubit = |q: usize| (1..=n).contains(&q);
    let controls = if code <= 8 {
        control == 0
    } else {
        qubit(control) && control != target
    };
    if &b[..2] != b"GT" || !(1..=10).contains(&code) || !qubit(target) || b[5] != 0 || !controls {
        return Err((12, 1));
    }
    let one = |action| Gate {
        action,
        target,
        control: None,
    };
    Ok(match code {
        1 => one(Action::Flip(0)),
        2 => one(Action::Flip(2)),
        3 => one(Action::Phase(4)),
        4 => one(Action::Hadamard),
        5 => one(Action::Phase(2)),
        6 => one(Action::Phase(6)),
        7 => one(Action::Phase(1)),
        8 => one(Action::Phase(7)),
        9 => Gate {
            action: Action::Flip(0),
            target,
            control: Some(control),
        },
        _ => Gate {
            action: Action::Phase(4),
            target: target.max(control),
            control: Some(target.min(control)),
        },
    })
}

/// For each state the range of its records.
fn ranges(states: usize, of: impl Iterator<Item = u16>) -> Vec<Range<usize>> {
    let mut found = vec![0..0; states];
    for (row, state) in of.enumerate() {
        let range = &mut found[state as usize];
        if range.start == range.end {
            range.start = row;
        }
        range.end = row + 1;
    }
    found
}

fn act(action: Action, l: u16, r: u16) -> (Key, Key) {
    match action {
        Action::Flip(j) => (shifted((8 - j) % 8, r), shifted(j, l)),
        Action::Phase(j) => (plain(l), shifted(j, r)),
        Action::Hadamard => ((Kind::PairL, l, r), (Kind::PairR, l, r)),
    }
}

/// The children of a state of the result that comes from one old state, by one of its transitions to l and r.
fn children(gate: &Gate, level: usize, kind: Kind, l: u16, r: u16) -> (Key, Key) {
    match kind {
        Kind::Shifted(j) => (shifted(j, l), shifted(j, r)),
        Kind::Inside if level == gate.target => act(gate.action, l, r),
        Kind::Inside => ((Kind::Inside, l, 0), (Kind::Inside, r, 0)),
        _ => match gate.control {
            None if level == gate.target => act(gate.action, l, r),
            Some(control) if control < gate.target && level == control => {
                (plain(l), (Kind::Inside, r, 0))
            }
            Some(control) if control > gate.target && level == gate.target => {
                ((Kind::PairL, l, r), (Kind::PairR, l, r))
            }
            _ => (plain(l), plain(r)),
        },
    }
}

fn turned(mut x: [i32; 4], j: u8) -> [i32; 4] {
    for _ in 0..j {
        x = [-x[3], x[0], x[1], x[2]];
    }
    x
}

/// The new set, or the number of the refusal: 15, then 14, then 16.
pub fn build(set: &Set, gate: &Gate) -> Result<Set, u8> {
    let k = set.k + matches!(gate.action, Action::Hadamard) as u8;
    if k > 64 {
        return Err(15);
    }
    let old_states = set.levels.iter().map(|&c| c as usize).sum();
    let inner_of = ranges(old_states, set.inner.iter().map(|r| r.state));
    let leaves_of = ranges(old_states, set.leaves.iter().map(|r| r.state));
    let rows = |q: u16| &set.inner[inner_of[q as usize].clone()];
    let leaf_rows = |q: u16| &set.leaves[leaves_of[q as usize].clone()];

    let mut levels = Vec::with_capacity(set.n + 1);
    let mut inner = Vec::with_capacity(set.inner.len());
    let mut leaves = Vec::with_capacity(set.leaves.len());
    let mut keys: Vec<Key> = (0..set.levels[0]).map(plain).collect();
    let mut following: Vec<Key> = Vec::new();
    let mut numbers: HashMap<Key, u16> = HashMap::new();
    let mut moves: Vec<(u32, Key, Key)> = Vec::new();
    let mut base = 0;

    for level in 1..=set.n {
        levels.push(keys.len() as u16);
        let after = base + keys.len();
        following.clear();
        numbers.clear();
        for (place, &(kind, q, p)) in keys.iter().enumerate() {
            moves.clear();
            match kind {
                Kind::PairL | Kind::PairR => {
                    let crossing = gate.control == Some(level);
                    for x in rows(q) {
                        for y in rows(p) {
                            let mask = x.mask & y.mask;
                            if mask == 0 {
                                continue;
                            }
                            let (l, r) = match (crossing, kind) {
                                (false, _) => ((kind, x.left, y.left), (kind, x.right, y.right)),
                                (true, Kind::PairL) => (plain(x.left), plain(y.right)),
                                (true, _) => (plain(y.left), plain(x.right)),
                            };
                            moves.push((mask, l, r));
                        }
                    }
                    moves.sort_by_key(|m| m.0.trailing_zeros());
                }
                _ => {
                    for x in rows(q) {
                        let (l, r) = children(gate, level, kind, x.left, x.right);
                        moves.push((x.mask, l, r));
                    }
                }
            }
            for &(mask, l, r) in &moves {
                let mut mention = |key: Key| {
                    *numbers.entry(key).or_insert_with(|| {
                        following.push(key);
                        (after + following.len() - 1) as u16
                    })
                };
                let (left, right) = (mention(l), mention(r));
                inner.push(Inner {
                    state: (base + place) as u16,
                    mask,
                    left,
                    right,
                });
            }
            if after + following.len() > MOST_STATES || inner.len() > MOST_INNER {
                return Err(14);
            }
        }
        std::mem::swap(&mut keys, &mut following);
        base = after;
    }
    levels.push(keys.len() as u16);
    if base + keys.len() > MOST_STATES {
        return Err(14);
    }

    let mut out_of_range = false;
    let mut met: Vec<(u32, [i32; 4])> = Vec::new();
    for (place, &(kind, q, p)) in keys.iter().enumerate() {
        let state = (base + place) as u16;
        match kind {
            Kind::PairL | Kind::PairR => {
                met.clear();
                for x in leaf_rows(q) {
                    for y in leaf_rows(p) {
                        let mask = x.mask & y.mask;
                        if mask == 0 {
                            continue;
                        }
                        let mut amplitude = [0; 4];
                        for i in 0..4 {
                            let (a, b) = (x.amplitude[i] as i64, y.amplitude[i] as i64);
                            let v = if kind == Kind::PairL { a + b } else { a - b };
                            out_of_range |= v.abs() > RANGE;
                            amplitude[i] = v as i32;
                        }
                        met.push((mask, amplitude));
                    }
                }
                met.sort_by_key(|m| m.0.trailing_zeros());
                leaves.extend(met.iter().map(|&(mask, amplitude)| Leaf {
                    state,
                    mask,
                    amplitude,
                }));
            }
            Kind::Shifted(j) => leaves.extend(leaf_rows(q).iter().map(|x| Leaf {
                state,
                mask: x.mask,
                amplitude: turned(x.amplitude, j),
            })),
            _ => leaves.extend(leaf_rows(q).iter().map(|x| Leaf { state, ..*x })),
        }
        if leaves.len() > MOST_LEAVES {
            return Err(14);
        }
    }
    if out_of_range {
        return Err(16);
    }
    Ok(Set {
        n: set.n,
        k,
        levels,
        inner,
        leaves,
    })
}

/// The whole job: the new set's bytes, or the refusal.
pub fn one_gate_rust(set: &[u8], circuit: &[u8]) -> Result<Vec<u8>, Refusal> {
    let set = read_set(set).map_err(|(number, place)| Refusal {
        number,
        source: 1,
        place,
    })?;
    let gate = read_gate(circuit, set.n).map_err(|(number, place)| Refusal {
        number,
        source: 2,
        place,
    })?;
    let new = build(&set, &gate).map_err(|number| Refusal {
        number,
        source: 2,
        place: 1,
    })?;
    Ok(write_set(&new))
}
