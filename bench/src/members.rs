//! The check's last phase member by member, in Rust: for each start's word the pairs that could match, from the leaves up, and then a search over
//! the end set's roots and choices with going back. Nothing is kept from one member to the next.
use crate::jobs::Verdict;
use crate::tables::{Tables, LEVELS};
use std::time::{Duration, Instant};

/// Steps of the search between two looks at the clock.
const STEPS: u32 = 1 << 16;

struct Search<'a> {
    t: &'a Tables,
    allowance: u32,
    count: u32,
    word: [u8; LEVELS],
    /// By level the image states that the word reaches, and by state its place among them.
    reached: Vec<Vec<u16>>,
    place: Vec<u16>,
    /// By level, for each reached state: the end states that could match it, and those that must match it. Bit q is the level's q-th.
    maybe: Vec<Vec<u128>>,
    must: Vec<Vec<u128>>,
    steps: u32,
    until: Instant,
}

/// Why the walk ends before the last member.
enum Stop {
    Fails,
    Undecided,
    Late,
}

fn ones(mut bits: u128) -> impl Iterator<Item = usize> {
    std::iter::from_fn(move || {
        let q = bits.trailing_zeros() as usize;
        (bits != 0).then(|| {
            bits &= bits - 1;
            q
        })
    })
}

impl Search<'_> {
    fn record(&self, i: usize, s: u16) -> usize {
        self.t.image.record[s as usize * 32 + self.word[i] as usize] as usize
    }

    /// The places of the two children of a reached state.
    fn children(&self, i: usize, s: u16) -> (usize, usize) {
        let x = &self.t.image.inner[self.record(i, s)];
        (
            self.place[x.left as usize] as usize,
            self.place[x.right as usize] as usize,
        )
    }

    fn reach(&mut self, i: usize) {
        let image = &self.t.image;
        let (above, below) = self.reached.split_at_mut(i + 1);
        let next = &mut below[0];
        next.clear();
        for &s in &above[i] {
            let x = &image.inner[image.record[s as usize * 32 + self.word[i] as usize] as usize];
            for child in [x.left, x.right] {
                let place = self.place[child as usize] as usize;
                if next.get(place) != Some(&child) {
                    self.place[child as usize] = next.len() as u16;
                    next.push(child);
                }
            }
        }
    }

    fn walk(&mut self, i: usize) -> Result<(), Stop> {
        let t = self.t;
        let choices = self.reached[i]
            .iter()
            .fold(u32::MAX, |m, &s| m & t.image.choices[s as usize]);
        for c in (0..32).filter(|c| choices >> c & 1 == 1) {
            self.word[i] = c;
            if i < t.n {
                self.reach(i);
                self.walk(i + 1)?;
                continue;
            }
            if self.count == self.allowance {
                return Err(Stop::Undecided);
            }
            self.count += 1;
            if !self.found()? {
                return Err(Stop::Fails);
            }
        }
        self.in_time()
    }

    fn in_time(&mut self) -> Result<(), Stop> {
        self.steps += 1;
        if self.steps % STEPS == 0 && Instant::now() > self.until {
            return Err(Stop::Late);
        }
        Ok(())
    }

    /// The end states that could match under the word, end choices free at each.
    fn hint(&mut self) {
        let t = self.t;
        let (n, end) = (t.n, &t.end);
        for i in (0..=n).rev() {
            let mut row = std::mem::take(&mut self.maybe[i]);
            row.clear();
            for &s in &self.reached[i] {
                let mut could = 0;
                if i == n {
                    let x = self.record(n, s);
                    for q in (0..end.width(n)).filter(|&q| t.equal(x, q) != 0) {
                        could |= 1 << q;
                    }
                } else {
                    let (l, r) = self.children(i, s);
                    let (l, r) = (self.maybe[i + 1][l], self.maybe[i + 1][r]);
                    let next = end.first[i + 1];
                    for y in &end.inner[end.first_inner[i]..end.first_inner[i + 1]] {
                        let both =
                            l >> (y.left as usize - next) & r >> (y.right as usize - next) & 1;
                        could |= both << (y.state as usize - end.first[i]);
                    }
                }
                row.push(could);
            }
            self.maybe[i] = row;
        }
    }

    fn found(&mut self) -> Result<bool, Stop> {
        self.hint();
        for root in ones(self.maybe[0][0]) {
            self.must[0].clear();
            self.must[0].push(1 << root);
            if self.seek(0)? {
                return Ok(true);
            }
        }
        Ok(false)
    }

    /// Is there an end word from level i on that makes all pairs of `must[i]` equal?
    fn seek(&mut self, i: usize) -> Result<bool, Stop> {
        self.in_time()?;
        let t = self.t;
        let (n, end) = (t.n, &t.end);
        let mut choices = u32::MAX;
        for (&s, &bits) in self.reached[i].iter().zip(&self.must[i]) {
            for q in ones(bits) {
                choices &= if i == n {
                    t.equal(self.record(n, s), q)
                } else {
                    end.choices[end.first[i] + q]
                };
            }
        }
        if i == n {
            return Ok(choices != 0);
        }
        for d in (0..32).filter(|d| choices >> d & 1 == 1) {
            if self.step(i, d) && self.seek(i + 1)? {
                return Ok(true);
            }
        }
        Ok(false)
    }

    /// The pairs one level down; false if one of them cannot match.
    fn step(&mut self, i: usize, d: usize) -> bool {
        let t = self.t;
        let end = &t.end;
        let mut next = std::mem::take(&mut self.must[i + 1]);
        next.clear();
        next.resize(self.reached[i + 1].len(), 0);
        for (&s, &bits) in self.reached[i].iter().zip(&self.must[i]) {
            let (l, r) = self.children(i, s);
            for q in ones(bits) {
                let y = &end.inner[end.record[(end.first[i] + q) * 32 + d] as usize];
                next[l] |= 1 << (y.left as usize - end.first[i + 1]);
                next[r] |= 1 << (y.right as usize - end.first[i + 1]);
            }
        }
        let could = next
            .iter()
            .zip(&self.maybe[i + 1])
            .all(|(must, maybe)| must & !maybe == 0);
        self.must[i + 1] = next;
        could
    }
}

/// The verdict, or nothing if it is not there in time.
pub fn check(t: &Tables, allowance: u32, limit: Duration) -> Option<Verdict> {
    let mut search = Search {
        t,
        allowance,
        count: 0,
        word: [0; LEVELS],
        reached: vec![Vec::new(); t.n + 1],
        place: vec![0; t.image.choices.len()],
        maybe: vec![Vec::new(); t.n + 1],
        must: vec![Vec::new(); t.n + 1],
        steps: 0,
        until: Instant::now() + limit,
    };
    for root in 0..t.image.width(0) {
        search.reached[0] = vec![root as u16];
        match search.walk(0) {
            Ok(()) => {}
            Err(Stop::Late) => return None,
            Err(Stop::Undecided) => return Some(Verdict::Undecided(allowance)),
            Err(Stop::Fails) => {
                return Some(Verdict::Fails {
                    place: search.count,
                    root: root as u32,
                    word: search.word[..=t.n].to_vec(),
                })
            }
        }
    }
    Some(Verdict::Holds(search.count))
}
