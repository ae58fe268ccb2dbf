//! The check's last phase as a walk that remembers, in Rust.
//!
//! A node of the walk is a level, the image states that the word so far reaches, and a set of relations between them and end states, each
//! reached by some end root and end choices. It is kept as a block of words: the number of relations, the states reached as bits, the relations
//! as bits (bit s * e + q for the level's s-th image state and q-th end state). A block whose members were all found is remembered with their
//! number. Only `judge`, an exact search for one member, says that a member fails.
use crate::jobs::Verdict;
use crate::tables::{Tables, LEVELS, NONE};

/// Words of the stack, of what is remembered, and of the exact search.
const WORDS: usize = 16384;
/// Relations of a block, and remembered blocks of a level, at most.
const ROOM: usize = 16;
const SLOTS: usize = 16;

/// What is fixed for a job.
struct Job<'a> {
    t: &'a Tables,
    /// By level: words of the states reached, of a relation, of the relations above.
    reached_words: [usize; LEVELS],
    relation_words: [usize; LEVELS],
    above: [usize; LEVELS],
    allowance: u32,
    room: usize,
    slots: usize,
    stack: usize,
}

#[derive(Clone, Copy, PartialEq)]
enum Kind {
    Going,
    Failed,
    Undecided,
}

/// Where the check stands. Clean: since the node was entered, each member was found from its block.
#[derive(Clone, Copy)]
struct State {
    kind: Kind,
    count: u32,
    root: usize,
    word: [u8; LEVELS],
    clean: bool,
}

struct Work {
    stack: Vec<u32>,
    remembered: Vec<u32>,
    /// Of each slot and level one more than the number of members, 0 if the slot is free.
    counts: Vec<u32>,
    turn: [usize; LEVELS],
    judge: Vec<u32>,
    /// Pairs that could match with all choices free, and those that could under one word.
    maybe: Vec<u32>,
    word_maybe: Vec<u32>,
}

// ---- bits
fn bit(b: &[u32], j: usize) -> bool {
    b[j / 32] >> (j % 32) & 1 == 1
}

fn set(b: &mut [u32], j: usize) {
    b[j / 32] |= 1 << (j % 32);
}

/// The places of the bits that are set.
fn ones(b: &[u32]) -> impl Iterator<Item = usize> + '_ {
    b.iter().enumerate().flat_map(|(w, &word)| {
        let mut rest = word;
        std::iter::from_fn(move || {
            let j = rest.trailing_zeros() as usize;
            (rest != 0).then(|| {
                rest &= rest - 1;
                32 * w + j
            })
        })
    })
}

impl Job<'_> {
    fn block(&self, i: usize) -> usize {
        self.relation(i, self.room)
    }

    /// Where relation p of a block of level i begins.
    fn relation(&self, i: usize, p: usize) -> usize {
        1 + self.reached_words[i] + p * self.relation_words[i]
    }

    fn reached<'b>(&self, i: usize, block: &'b [u32]) -> &'b [u32] {
        &block[1..1 + self.reached_words[i]]
    }

    fn hints<'b>(&self, i: usize, all: &'b [u32]) -> &'b [u32] {
        &all[self.above[i]..self.above[i] + self.relation_words[i]]
    }

    /// The place of a pair of states of level i.
    fn pair(&self, i: usize, s: u16, q: u16) -> usize {
        let (image, end) = (&self.t.image, &self.t.end);
        (s as usize - image.first[i]) * end.width(i) + (q as usize - end.first[i])
    }

    // ---- one relation, one level down
    /// The relation one level down into `to`; false if it has a pair that the hints rule out.
    fn step(
        &self,
        i: usize,
        from: &[u32],
        c: usize,
        d: usize,
        hints: &[u32],
        to: &mut [u32],
    ) -> bool {
        let (image, end) = (&self.t.image, &self.t.end);
        to.fill(0);
        let e = end.width(i);
        for p in ones(from) {
            let x = &image.inner[image.record[(image.first[i] + p / e) * 32 + c] as usize];
            let y = &end.inner[end.record[(end.first[i] + p % e) * 32 + d] as usize];
            let (l, r) = (
                self.pair(i + 1, x.left, y.left),
                self.pair(i + 1, x.right, y.right),
            );
            if !(bit(hints, l) && bit(hints, r)) {
                return false;
            }
            set(to, l);
            set(to, r);
        }
        true
    }

    /// The end choices that every end state of the relation has.
    fn end_choices(&self, i: usize, relation: &[u32]) -> u32 {
        let end = &self.t.end;
        let e = end.width(i);
        ones(relation).fold(u32::MAX, |m, p| m & end.choices[end.first[i] + p % e])
    }

    /// Level i + 1's relations from those of level i, from place `at` (32 times the relation, plus the end choice) on, until the room is
    /// full or no more come. Each new one once. The place to go on from.
    fn fill(
        &self,
        i: usize,
        block: &[u32],
        c: usize,
        at: usize,
        hints: &[u32],
        to: &mut [u32],
    ) -> usize {
        let (mut at, mut p) = (at, 0);
        let all = 32 * block[0] as usize;
        while at < all && p < self.room {
            let from = &block[self.relation(i, at / 32)..][..self.relation_words[i]];
            let choices = self.end_choices(i, from);
            while p < self.room {
                let d = at % 32;
                if choices >> d & 1 == 1 {
                    let (before, new) = to.split_at_mut(self.relation(i + 1, p));
                    let new = &mut new[..self.relation_words[i + 1]];
                    if self.step(i, from, c, d, hints, new) && self.fresh(i + 1, before, new) {
                        p += 1;
                    }
                }
                at += 1;
                if at % 32 == 0 {
                    break;
                }
            }
        }
        to[0] = p as u32;
        at
    }

    /// Is the new relation unlike those of the block before it?
    fn fresh(&self, i: usize, before: &[u32], new: &[u32]) -> bool {
        before[1 + self.reached_words[i]..]
            .chunks_exact(self.relation_words[i])
            .all(|old| old != new)
    }

    /// Level 0: the root with the end roots from `at` on.
    fn begin(&self, root: usize, at: usize, hints: &[u32], to: &mut [u32]) -> usize {
        let e = self.t.end.width(0);
        let (mut at, mut p) = (at, 0);
        while at < e && p < self.room {
            if bit(hints, root * e + at) {
                let new = &mut to[self.relation(0, p)..][..self.relation_words[0]];
                new.fill(0);
                set(new, root * e + at);
                p += 1;
            }
            at += 1;
        }
        to[0] = p as u32;
        at
    }

    // ---- leaves
    /// Does some relation of the block have an end choice that makes all its pairs equal?
    fn leaves(&self, block: &[u32], c: usize) -> bool {
        let (n, image) = (self.t.n, &self.t.image);
        let e = self.t.end.width(n);
        (0..block[0] as usize).any(|k| {
            let mut m = u32::MAX;
            for p in ones(&block[self.relation(n, k)..][..self.relation_words[n]]) {
                let x = image.record[(image.first[n] + p / e) * 32 + c] as usize;
                m &= self.t.equal(x, p % e);
                if m == 0 {
                    break;
                }
            }
            m != 0
        })
    }

    // ---- hints: pairs that could match
    fn leaf_row(&self, s: usize, x: usize, row: &mut [u32]) {
        let e = self.t.end.width(self.t.n);
        for q in (0..e).filter(|&q| self.t.equal(x, q) != 0) {
            set(row, s * e + q);
        }
    }

    fn inner_row(&self, i: usize, x: usize, below: &[u32], row: &mut [u32]) {
        let (x, end) = (&self.t.image.inner[x], &self.t.end);
        for y in &end.inner[end.first_inner[i]..end.first_inner[i + 1]] {
            if bit(below, self.pair(i + 1, x.left, y.left))
                && bit(below, self.pair(i + 1, x.right, y.right))
            {
                set(row, self.pair(i, x.state, y.state));
            }
        }
    }

    /// With all choices free.
    fn maybe(&self, all: &mut [u32]) {
        let (n, image) = (self.t.n, &self.t.image);
        for (x, &state) in image.leaf_state.iter().enumerate() {
            self.leaf_row(
                state as usize - image.first[n],
                x,
                &mut all[self.above[n]..],
            );
        }
        for i in (0..n).rev() {
            let (up, below) = all.split_at_mut(self.above[i + 1]);
            for x in image.first_inner[i]..image.first_inner[i + 1] {
                self.inner_row(i, x, below, &mut up[self.above[i]..]);
            }
        }
    }

    /// Of the states that the word reaches, with the end choices free at each.
    fn word_maybe(&self, stack: &[u32], word: &[u8; LEVELS], all: &mut [u32]) {
        let (n, image) = (self.t.n, &self.t.image);
        let mut at = self.stack;
        for i in (0..=n).rev() {
            at -= self.block(i);
            let (up, below) = all.split_at_mut(self.above[i] + self.relation_words[i]);
            let row = &mut up[self.above[i]..];
            row.fill(0);
            for s in ones(self.reached(i, &stack[at..])) {
                match image.record[(image.first[i] + s) * 32 + word[i] as usize] {
                    NONE => {}
                    x if i == n => self.leaf_row(s, x as usize, row),
                    x => self.inner_row(i, x as usize, below, row),
                }
            }
        }
    }

    // ---- one member exactly
    fn judge(&self, i: usize, word: &[u8; LEVELS], hints: &[u32], blocks: &mut [u32]) -> bool {
        if i == self.t.n {
            return self.leaves(blocks, word[i] as usize);
        }
        let (front, rest) = blocks.split_at_mut(self.block(i));
        let mut at = 0;
        while at < 32 * front[0] as usize {
            at = self.fill(
                i,
                front,
                word[i] as usize,
                at,
                self.hints(i + 1, hints),
                rest,
            );
            if self.judge(i + 1, word, hints, rest) {
                return true;
            }
        }
        false
    }

    fn judge_root(
        &self,
        root: usize,
        word: &[u8; LEVELS],
        hints: &[u32],
        blocks: &mut [u32],
    ) -> bool {
        let mut at = 0;
        while at < self.t.end.width(0) {
            at = self.begin(root, at, self.hints(0, hints), blocks);
            if self.judge(0, word, hints, blocks) {
                return true;
            }
        }
        false
    }

    // ---- the walk
    fn choices(&self, i: usize, block: &[u32]) -> u32 {
        let image = &self.t.image;
        ones(self.reached(i, block)).fold(u32::MAX, |m, s| m & image.choices[image.first[i] + s])
    }

    fn reach(&self, i: usize, block: &[u32], c: usize, to: &mut [u32]) {
        let image = &self.t.image;
        let to = &mut to[1..1 + self.reached_words[i + 1]];
        to.fill(0);
        for s in ones(self.reached(i, block)) {
            let x = &image.inner[image.record[(image.first[i] + s) * 32 + c] as usize];
            set(to, x.left as usize - image.first[i + 1]);
            set(to, x.right as usize - image.first[i + 1]);
        }
    }

    fn member(&self, at: usize, s: State, w: &mut Work) -> State {
        if s.count == self.allowance {
            return State {
                kind: Kind::Undecided,
                ..s
            };
        }
        let s = State {
            count: s.count + 1,
            ..s
        };
        if self.leaves(&w.stack[at..], s.word[self.t.n] as usize) {
            return s;
        }
        self.word_maybe(&w.stack, &s.word, &mut w.word_maybe);
        if self.judge_root(s.root, &s.word, &w.word_maybe, &mut w.judge) {
            return State { clean: false, ..s };
        }
        State {
            kind: Kind::Failed,
            ..s
        }
    }

    fn branch(&self, i: usize, at: usize, c: usize, s: State, w: &mut Work) -> State {
        let mut s = s;
        s.word[i] = c as u8;
        if i == self.t.n {
            return self.member(at, s, w);
        }
        let (front, rest) = w.stack[at..].split_at_mut(self.block(i));
        self.reach(i, front, c, rest);
        self.fill(i, front, c, 0, self.hints(i + 1, &w.maybe), rest);
        self.enter(i + 1, at + self.block(i), s, w)
    }

    fn enter(&self, i: usize, at: usize, s: State, w: &mut Work) -> State {
        if let Some(m) = self.known(i, at, w) {
            return if self.allowance - s.count < m {
                State {
                    kind: Kind::Undecided,
                    count: self.allowance,
                    ..s
                }
            } else {
                State {
                    count: s.count + m,
                    ..s
                }
            };
        }
        let r = self.visit(i, at, State { clean: true, ..s }, w);
        if r.kind == Kind::Going && r.clean {
            self.remember(i, at, r.count - s.count, w);
        }
        State {
            clean: r.clean && s.clean,
            ..r
        }
    }

    /// The members under the block, if it is remembered.
    fn known(&self, i: usize, at: usize, w: &Work) -> Option<u32> {
        let block = &w.stack[at..][..self.relation(i, w.stack[at] as usize)];
        (0..self.slots)
            .find(|k| {
                w.counts[k * LEVELS + i] > 0
                    && w.remembered[k * self.stack + at..].starts_with(block)
            })
            .map(|k| w.counts[k * LEVELS + i] - 1)
    }

    fn remember(&self, i: usize, at: usize, m: u32, w: &mut Work) {
        if self.slots == 0 {
            return;
        }
        let k = w.turn[i];
        let block = &w.stack[at..][..self.relation(i, w.stack[at] as usize)];
        w.remembered[k * self.stack + at..][..block.len()].copy_from_slice(block);
        w.counts[k * LEVELS + i] = m + 1;
        w.turn[i] = (k + 1) % self.slots;
    }

    fn visit(&self, i: usize, at: usize, s: State, w: &mut Work) -> State {
        let choices = self.choices(i, &w.stack[at..]);
        let mut s = s;
        for c in (0..32).filter(|c| choices >> c & 1 == 1) {
            s = self.branch(i, at, c, s, w);
            if s.kind != Kind::Going {
                break;
            }
        }
        s
    }

    fn roots(&self, w: &mut Work) -> State {
        let mut s = State {
            kind: Kind::Going,
            count: 0,
            root: 0,
            word: [0; LEVELS],
            clean: true,
        };
        for root in 0..self.t.image.width(0) {
            s.root = root;
            let reached = &mut w.stack[1..1 + self.reached_words[0]];
            reached.fill(0);
            set(reached, root);
            self.begin(root, 0, self.hints(0, &w.maybe), &mut w.stack);
            s = self.visit(0, 0, s, w);
            if s.kind != Kind::Going {
                break;
            }
        }
        s
    }
}

pub fn check(t: &Tables, allowance: u32) -> Verdict {
    let mut job = Job {
        t,
        reached_words: [0; LEVELS],
        relation_words: [0; LEVELS],
        above: [0; LEVELS],
        allowance,
        room: 0,
        slots: 0,
        stack: 0,
    };
    let (mut fixed, mut words) = (0, 0);
    for i in 0..=t.n {
        job.reached_words[i] = t.image.width(i).div_ceil(32);
        job.relation_words[i] = (t.image.width(i) * t.end.width(i)).div_ceil(32);
        job.above[i] = words;
        fixed += 1 + job.reached_words[i];
        words += job.relation_words[i];
    }
    job.room = ((WORDS - fixed) / words.max(1)).min(ROOM);
    job.stack = fixed + job.room * words;
    job.slots = (WORDS / job.stack).min(SLOTS);
    let mut w = Work {
        stack: vec![0; job.stack],
        remembered: vec![0; job.slots * job.stack],
        counts: vec![0; SLOTS * LEVELS],
        turn: [0; LEVELS],
        judge: vec![0; job.stack],
        maybe: vec![0; words],
        word_maybe: vec![0; words],
    };
    job.maybe(&mut w.maybe);
    let s = job.roots(&mut w);
    match s.kind {
        Kind::Going => Verdict::Holds(s.count),
        Kind::Undecided => Verdict::Undecided(s.count),
        Kind::Failed => Verdict::Fails {
            place: s.count,
            root: s.root as u32,
            word: s.word[..=t.n].to_vec(),
        },
    }
}
