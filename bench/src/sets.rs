//! Set files in the usual Rust way: reading by all rules into vectors, and writing.

pub const MOST_STATES: usize = 1024;
pub const MOST_END_STATES: usize = 128;
pub const MOST_INNER: usize = 2048;
pub const MOST_LEAVES: usize = 1024;
pub const RANGE: i64 = 1 << 30;

#[derive(Clone, Copy)]
pub struct Inner {
    pub state: u16,
    pub mask: u32,
    pub left: u16,
    pub right: u16,
}

#[derive(Clone, Copy)]
pub struct Leaf {
    pub state: u16,
    pub mask: u32,
    pub amplitude: [i32; 4],
}

pub struct Set {
    pub n: usize,
    pub k: u8,
    /// States on each level, level 1 first.
    pub levels: Vec<u16>,
    pub inner: Vec<Inner>,
    pub leaves: Vec<Leaf>,
}

fn u16_at(b: &[u8], at: usize) -> u16 {
    u16::from_le_bytes(b[at..at + 2].try_into().unwrap())
}

fn u32_at(b: &[u8], at: usize) -> u32 {
    u32::from_le_bytes(b[at..at + 4].try_into().unwrap())
}

fn i32_at(b: &[u8], at: usize) -> i32 {
    u32_at(b, at) as i32
}

/// The first record, given by state and mask, that is out of order or shares a choice with an earlier one of its state.
fn clash(records: impl Iterator<Item = (u16, u32)>) -> Option<usize> {
    let mut last: Option<(u16, u32)> = None;
    let mut used = 0;
    for (i, (state, mask)) in records.enumerate() {
        let key = (state, mask.trailing_zeros());
        if last.is_some_and(|l| l >= key) {
            return Some(i);
        }
        if last.map(|l| l.0) != Some(state) {
            used = 0;
        }
        if used & mask != 0 {
            return Some(i);
        }
        used |= mask;
        last = Some(key);
    }
    None
}

/// The set, or the number of its refusal and the number of the record at fault, HD being 0; 0 where it is none.
pub fn read_set(b: &[u8]) -> Result<Set, (u8, u32)> {
    read_set_of(b, MOST_STATES)
}

/// The same for an end set.
pub fn read_end_set(b: &[u8]) -> Result<Set, (u8, u32)> {
    read_set_of(b, MOST_END_STATES)
}

fn read_set_of(b: &[u8], most_states: usize) -> Result<Set, (u8, u32)> {
    if b.len() < 12 || &b[..2] != b"HD" {
        return Err((1, 0));
    }
    if b[2] != 1 {
        return Err((2, 0));
    }
    let (n, k) = (b[3] as usize, b[4]);
    if !(1..=20).contains(&n) || k > 64 || b[5] != 0 {
        return Err((3, 0));
    }
    let states = u16_at(b, 6) as usize;
    let inner_count = u16_at(b, 8) as usize;
    let leaf_count = u16_at(b, 10) as usize;
    if states > most_states || inner_count > MOST_INNER || leaf_count > MOST_LEAVES {
        return Err((4, 0));
    }
    let first_inner = 12 + 4 * (n + 1);
    let first_leaf = first_inner + 12 * inner_count;
    if b.len() != first_leaf + 24 * leaf_count {
        return Err((5, 0));
    }
    let lv = b[12..first_inner].chunks_exact(4);
    let tr = b[first_inner..first_leaf].chunks_exact(12);
    let lf = b[first_leaf..].chunks_exact(24);
    let (trs, lfs) = (n + 2, n + 2 + inner_count);
    let wrong = |mut records: std::slice::ChunksExact<u8>, mark: &[u8]| {
        records.position(|r| &r[..2] != mark)
    };
    if let Some(place) = wrong(lv.clone(), b"LV")
        .map(|i| 1 + i)
        .or_else(|| wrong(tr.clone(), b"TR").map(|i| trs + i))
        .or_else(|| wrong(lf.clone(), b"LF").map(|i| lfs + i))
    {
        return Err((6, place as u32));
    }
    let levels: Vec<u16> = lv.map(|r| u16_at(r, 2)).collect();
    if levels[0] == 0 || levels.iter().map(|&c| c as usize).sum::<usize>() != states {
        return Err((7, 0));
    }
    let mut level_of = Vec::with_capacity(states);
    for (i, &count) in levels.iter().enumerate() {
        level_of.resize(level_of.len() + count as usize, i + 1);
    }
    let on = |state: u16, level: usize| level_of.get(state as usize) == Some(&level);

    let inner: Vec<Inner> = tr
        .map(|r| Inner {
            state: u16_at(r, 2),
            mask: u32_at(r, 4),
            left: u16_at(r, 8),
            right: u16_at(r, 10),
        })
        .collect();
    for (i, r) in inner.iter().enumerate() {
        let number = match level_of.get(r.state as usize) {
            Some(&level) if level <= n => {
                if !on(r.left, level + 1) {
                    82
                } else if !on(r.right, level + 1) {
                    83
                } else if r.mask == 0 {
                    84
                } else {
                    continue;
                }
            }
            _ => 81,
        };
        return Err((number, (trs + i) as u32));
    }
    let leaves: Vec<Leaf> = lf
        .map(|r| Leaf {
            state: u16_at(r, 2),
            mask: u32_at(r, 4),
            amplitude: [i32_at(r, 8), i32_at(r, 12), i32_at(r, 16), i32_at(r, 20)],
        })
        .collect();
    for (i, r) in leaves.iter().enumerate() {
        if !on(r.state, n + 1)
            || r.mask == 0
            || r.amplitude.iter().any(|&v| (v as i64).abs() > RANGE)
        {
            return Err((9, (lfs + i) as u32));
        }
    }
    let clashes = clash(inner.iter().map(|r| (r.state, r.mask))).map(|i| trs + i);
    if let Some(place) =
        clashes.or_else(|| clash(leaves.iter().map(|r| (r.state, r.mask))).map(|i| lfs + i))
    {
        return Err((10, place as u32));
    }
    Ok(Set {
        n,
        k,
        levels,
        inner,
        leaves,
    })
}

pub fn write_set(s: &Set) -> Vec<u8> {
    let states: u16 = s.levels.iter().sum();
    let mut out =
        Vec::with_capacity(12 + 4 * s.levels.len() + 12 * s.inner.len() + 24 * s.leaves.len());
    out.extend_from_slice(b"HD");
    out.extend_from_slice(&[1, s.n as u8, s.k, 0]);
    for count in [states, s.inner.len() as u16, s.leaves.len() as u16] {
        out.extend_from_slice(&count.to_le_bytes());
    }
    for count in &s.levels {
        out.extend_from_slice(b"LV");
        out.extend_from_slice(&count.to_le_bytes());
    }
    for r in &s.inner {
        out.extend_from_slice(b"TR");
        out.extend_from_slice(&r.state.to_le_bytes());
        out.extend_from_slice(&r.mask.to_le_bytes());
        out.extend_from_slice(&r.left.to_le_bytes());
        out.extend_from_slice(&r.right.to_le_bytes());
    }
    for r in &s.leaves {
        out.extend_from_slice(b"LF");
        out.extend_from_slice(&r.state.to_le_bytes());
        out.extend_from_slice(&r.mask.to_le_bytes());
        for v in r.amplitude {
            out.extend_from_slice(&v.to_le_bytes());
        }
    }
    out
}
