//! A solver of the supervisor's game on the built rows: recursion over the priorities, from the least. All states stand in one list. An arena is a part of it, and what a
//! player wins or attracts there grows from that player's end of the part, the supervisor's from the front and the plant's from the back, so that the list is the
//! worklist too. What a player still holds by its letters once the other has won something is kept, and only the rest is solved again.
//! A [`Solver`] keeps its buffers from one game to the next.

use crate::fast::Translator;
use crate::policy::Policy;
use crate::{Automaton, Refusal, Tables};

/// What stands for a letter at a state that its owner does not win.
pub const NO_LETTER: u8 = 255;

/// The two tables that solving adds to the seven of a caller.
pub struct Solution<'a> {
    pub state_winners: &'a mut [u8],
    pub state_letters: &'a mut [u8],
}

/// A solver with its buffers.
#[derive(Default)]
pub struct Solver {
    translator: Translator,
    /// The owner of each built state.
    owners: Vec<u8>,
    buffers: Buffers,
}

impl Solver {
    /// The questions 7 to 10, 16 and 17, and then the automaton and the solution in the tables; all nine are 0 after 9, 10, 16 and 17.
    pub fn fill(
        &mut self,
        p: &Policy,
        owners: &[u8],
        mut tables: Tables<'_>,
        solution: Solution<'_>,
    ) -> Result<&Automaton, Refusal> {
        let places = tables.state_sources.len();
        if solution.state_winners.len() != places || solution.state_letters.len() != places {
            return Err(if p.is_legal() { 8 } else { 7 });
        }
        let answer = self.translator.put(p, &mut tables).and_then(|a| {
            if owners.len() != p.states {
                Err(16)
            } else if owners.iter().any(|&x| x > 1) {
                Err(17)
            } else {
                Ok(a)
            }
        });
        let (winners, letters) = (solution.state_winners, solution.state_letters);
        match answer {
            Err(7 | 8) => {}
            Err(_) => {
                tables.clear(0, 0, 0);
                winners.fill(0);
                letters.fill(0);
            }
            Ok(a) => {
                self.owners.clear();
                let owner = |s: &(u8, u16)| owners[s.0 as usize];
                self.owners.extend(a.states.iter().map(owner));
                let (winners, past) = winners.split_at_mut(a.states.len());
                past.fill(0);
                let (letters, past) = letters.split_at_mut(a.states.len());
                past.fill(0);
                self.buffers
                    .solve(p.letters, &a.rows, &self.owners, winners, letters);
            }
        }
        answer
    }

    /// Solves the game on rows of priorities below 16: who wins each state, and a letter at each that its owner wins.
    pub fn solve(
        &mut self,
        letters: usize,
        rows: &[(u16, u8)],
        owners: &[u8],
        winners: &mut [u8],
        choice: &mut [u8],
    ) {
        self.buffers.solve(letters, rows, owners, winners, choice);
    }
}

/// As many places as there are numbers of 16 bits, so that none of them is past the end.
const PLACES: usize = 1 << 16;

#[derive(Default)]
struct Buffers {
    has: Vec<u16>,
    from: Vec<u32>,
    back: Vec<Back>,
    order: Vec<u16>,
    at: Vec<u16>,
}

impl Buffers {
    fn solve(
        &mut self,
        letters: usize,
        rows: &[(u16, u8)],
        owners: &[u8],
        winners: &mut [u8],
        choice: &mut [u8],
    ) {
        let states = owners.len();
        self.has.resize(PLACES, 0);
        self.order.resize(PLACES, 0);
        self.at.resize(PLACES, 0);
        for s in 0..states {
            self.order[s] = s as u16;
            self.at[s] = s as u16;
        }
        for (has, rows) in self.has.iter_mut().zip(rows.chunks_exact(letters)) {
            *has = rows.iter().fold(0, |set, row| set | 1 << row.1);
        }
        let mut game = Game {
            letters,
            rows,
            owners,
            has: self.has[..].try_into().unwrap(),
            listed: false,
            patience: 4 * rows.len(),
            from: &mut self.from,
            back: &mut self.back,
            order: (&mut self.order[..]).try_into().unwrap(),
            at: (&mut self.at[..]).try_into().unwrap(),
            choice,
        };
        let plant = game.solve(Part(0, states), 0);
        for (i, &s) in game.order[..states].iter().enumerate() {
            let s = s as usize;
            winners[s] = (i >= plant) as u8;
            if winners[s] != owners[s] {
                game.choice[s] = NO_LETTER;
            }
        }
    }
}

/// A row, as the state that it leads to has it.
#[derive(Clone, Copy, Default)]
struct Back {
    source: u16,
    letter: u8,
    /// Twice the priority, plus the owner of the source.
    kind: u8,
}

/// A part of the list of states: from a place up to another. An edge divides it, and what lies from player J's end to the edge is that player's side.
#[derive(Clone, Copy)]
struct Part(usize, usize);

impl Part {
    fn len(self) -> usize {
        self.1 - self.0
    }

    fn has(self, place: u16) -> bool {
        (place as usize).wrapping_sub(self.0) < self.len()
    }

    fn end<const J: u8>(self) -> usize {
        if J == 0 {
            self.0
        } else {
            self.1
        }
    }

    fn side<const J: u8>(self, edge: usize) -> Part {
        if J == 0 {
            Part(self.0, edge)
        } else {
            Part(edge, self.1)
        }
    }

    /// What is not on player J's side.
    fn rest<const J: u8>(self, edge: usize) -> Part {
        if J == 0 {
            Part(edge, self.1)
        } else {
            Part(self.0, edge)
        }
    }
}

/// Moves an edge by one place away from player J's end: the place that it passed.
fn pass<const J: u8>(edge: &mut usize) -> usize {
    if J == 0 {
        *edge += 1;
        (*edge - 1) % PLACES
    } else {
        *edge -= 1;
        *edge % PLACES
    }
}

struct Game<'a> {
    letters: usize,
    rows: &'a [(u16, u8)],
    owners: &'a [u8],
    /// The priorities of the rows of each state, as bits.
    has: &'a [u16; PLACES],
    /// Whether the rows are listed by the states that they lead to; how many rows may be looked at before that is done; where each list begins, and the lists.
    listed: bool,
    patience: usize,
    from: &'a mut Vec<u32>,
    back: &'a mut Vec<Back>,
    /// The list of all states, and the place of each.
    order: &'a mut [u16; PLACES],
    at: &'a mut [u16; PLACES],
    choice: &'a mut [u8],
}

impl Game<'_> {
    /// Solves the arena of these states and the rows of priority p or more between them: where the plant's states begin.
    fn solve(&mut self, mut all: Part, p: u8) -> usize {
        while all.len() > 0 {
            let sets = self.order[all.0..all.1].iter();
            let set = sets.fold(0, |set, &s| set | self.has[s as usize] as u32);
            // the least priority, and the least one above it that serves the other player
            let set = set & !0 << p;
            let p = set.trailing_zeros();
            let q = (set & 0x5555 << (1 - p % 2)).trailing_zeros().min(16);
            all = if p % 2 == 0 {
                self.turn::<0, 1>(all, p as u8, q as u8)
            } else {
                self.turn::<1, 0>(all, p as u8, q as u8)
            };
        }
        all.0
    }

    /// A turn of player I, whom the priorities from p to below q serve: what is left to solve.
    fn turn<const I: u8, const J: u8>(&mut self, all: Part, p: u8, q: u8) -> Part {
        let edge = self.attract_rows::<I>(all, p, q);
        let above = all.rest::<I>(edge);
        if above.len() == 0 {
            return above;
        }
        let lost = self.solve(above, q);
        if all.side::<J>(lost).len() == 0 {
            return Part(lost, lost);
        }
        let lost = self.attract::<J>(all, all.end::<J>(), lost, p, p);
        let edge = self.release::<I, J>(all, lost, p);
        let kept = all.rest::<J>(lost);
        let edge = self.attract::<I>(kept, kept.end::<I>(), edge, p, p);
        kept.rest::<I>(edge)
    }

    /// Brings a state to player J's side of the edge.
    #[inline(always)]
    fn bring<const J: u8>(&mut self, s: u16, edge: &mut usize) {
        let to = pass::<J>(edge);
        let from = self.at[s as usize];
        let other = self.order[to];
        self.order[from as usize] = other;
        self.at[other as usize] = from;
        self.order[to] = s;
        self.at[s as usize] = to as u16;
    }

    fn rows(&self, s: u16) -> &[(u16, u8)] {
        &self.rows[s as usize * self.letters..][..self.letters]
    }

    /// The first letter whose row leads into a part and has such a priority.
    #[inline(always)]
    fn letter(&self, s: u16, part: Part, such: impl Fn(u8) -> bool) -> Option<usize> {
        let fits = |r: &(u16, u8)| such(r.1) && part.has(self.at[r.0 as usize]);
        self.rows(s).iter().position(fits)
    }

    /// What player J attracts to the rows of priority p to below q.
    fn attract_rows<const J: u8>(&mut self, all: Part, p: u8, q: u8) -> usize {
        let range = ((1u32 << q) - (1 << p)) as u16;
        let (mut next, mut edge) = (all.end::<J>(), all.end::<J>());
        for _ in 0..all.len() {
            let s = self.order[pass::<J>(&mut next)];
            if self.has[s as usize] & range == 0 {
                continue;
            }
            if self.owners[s as usize] == J {
                let Some(a) = self.letter(s, all, |k| k >= p && k < q) else {
                    continue;
                };
                self.choice[s as usize] = a as u8;
            } else if self.letter(s, all.rest::<J>(edge), |k| k >= q).is_some() {
                continue;
            }
            self.bring::<J>(s, &mut edge);
        }
        self.attract::<J>(all, all.end::<J>(), edge, p, q)
    }

    /// What player J attracts to its side of the edge by rows of priority p or more, if that is known of what lies before `done`. Rows of priority below q do not keep
    /// the other player away.
    fn attract<const J: u8>(
        &mut self,
        all: Part,
        mut done: usize,
        mut edge: usize,
        p: u8,
        q: u8,
    ) -> usize {
        while let Some(forward) = self.way(done.abs_diff(edge), all.rest::<J>(edge).len()) {
            if forward {
                (done, edge) = (edge, edge);
                let mut next = edge;
                for _ in 0..all.rest::<J>(edge).len() {
                    let s = self.order[pass::<J>(&mut next)];
                    if self.owners[s as usize] == J {
                        let Some(a) = self.letter(s, all.side::<J>(edge), |k| k >= p) else {
                            continue;
                        };
                        self.choice[s as usize] = a as u8;
                    } else if self.letter(s, all.rest::<J>(edge), |k| k >= q).is_some() {
                        continue;
                    }
                    self.bring::<J>(s, &mut edge);
                }
                continue;
            }
            let t = self.order[pass::<J>(&mut done)] as usize;
            for k in self.from[t]..self.from[t + 1] {
                let row = self.back[k as usize];
                let (s, rest) = (row.source, all.rest::<J>(edge));
                if row.kind < 2 * p || !rest.has(self.at[s as usize]) {
                    continue;
                }
                if row.kind % 2 == J {
                    self.choice[s as usize] = row.letter;
                } else if self.letter(s, rest, |k| k >= q).is_some() {
                    continue;
                }
                self.bring::<J>(s, &mut edge);
            }
        }
        edge
    }

    /// Brings to player J's side of the edge what player I no longer holds: its own states whose letter leads there, and the other's with a row of priority p or more
    /// that does.
    fn release<const I: u8, const J: u8>(&mut self, all: Part, mut edge: usize, p: u8) -> usize {
        let mut done = all.end::<J>();
        while let Some(forward) = self.way(done.abs_diff(edge), all.rest::<J>(edge).len()) {
            if forward {
                (done, edge) = (edge, edge);
                let mut next = edge;
                for _ in 0..all.rest::<J>(edge).len() {
                    let s = self.order[pass::<J>(&mut next)];
                    let side = all.side::<J>(edge);
                    let leaves = if self.owners[s as usize] == I {
                        let row = self.rows(s)[self.choice[s as usize] as usize];
                        side.has(self.at[row.0 as usize])
                    } else {
                        self.letter(s, side, |k| k >= p).is_some()
                    };
                    if leaves {
                        self.bring::<J>(s, &mut edge);
                    }
                }
                continue;
            }
            let t = self.order[pass::<J>(&mut done)] as usize;
            for k in self.from[t]..self.from[t + 1] {
                let row = self.back[k as usize];
                let s = row.source;
                let leaves = if row.kind % 2 == I {
                    self.choice[s as usize] == row.letter
                } else {
                    row.kind >= 2 * p
                };
                if leaves && all.rest::<J>(edge).has(self.at[s as usize]) {
                    self.bring::<J>(s, &mut edge);
                }
            }
        }
        edge
    }

    /// How to go on with so many states whose rows back are pending and so many outside: by the rows of those outside, where these are few, or else by the rows back;
    /// none if there is nothing left.
    fn way(&mut self, pending: usize, outside: usize) -> Option<bool> {
        if pending == 0 || outside == 0 {
            return None;
        }
        if outside < 2 * pending {
            return Some(true);
        }
        if !self.listed {
            let cost = outside * self.letters;
            if cost < self.patience {
                self.patience -= cost;
                return Some(true);
            }
            self.list();
        }
        Some(false)
    }

    /// Lists the rows by the states that they lead to.
    #[cold]
    fn list(&mut self) {
        let (from, back) = (&mut *self.from, &mut *self.back);
        self.listed = true;
        from.clear();
        from.resize(self.owners.len() + 2, 0);
        back.resize(back.len().max(self.rows.len()), Back::default());
        for row in self.rows {
            from[row.0 as usize + 2] += 1;
        }
        let mut sum = 0;
        for place in from.iter_mut() {
            sum += *place;
            *place = sum;
        }
        let rows = self.rows.chunks_exact(self.letters);
        for (s, (rows, owner)) in rows.zip(self.owners).enumerate() {
            for (a, row) in rows.iter().enumerate() {
                let place = &mut from[row.0 as usize + 1];
                back[*place as usize] = Back {
                    source: s as u16,
                    letter: a as u8,
                    kind: 2 * row.1 + owner,
                };
                *place += 1;
            }
        }
    }
}
