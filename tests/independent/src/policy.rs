//! A policy and its command bytes.

use crate::Refusal;

/// How many bytes a record has.
pub const RECORD: usize = 452;

#[derive(Clone, Debug, Default, PartialEq, Eq)]
pub struct Policy {
    pub states: usize,
    pub letters: usize,
    pub colours: usize,
    pub initial: usize,
    /// Target and colour of each edge; a quiet one has no colour.
    pub edges: Vec<(usize, Option<usize>)>,
    /// Which colour sets are accepted.
    pub family: Vec<bool>,
}

/// The colour set at a position of document 01's order, with no table: sizes are passed by how many sets they have, and then the colours are gone through from the
/// last, since of the sets of a size those without it come first.
pub fn set_at(position: u8) -> u8 {
    let (mut size, mut sets, mut left) = (8, 1, u32::from(position));
    while left >= sets {
        left -= sets;
        sets = sets * size / (9 - size);
        size -= 1;
    }
    let mut mask = 0;
    for colours in (1..=8).rev() {
        let without = sets * (colours - size) / colours;
        if left < without {
            sets = without;
        } else {
            mask |= 1 << (colours - 1);
            left -= without;
            sets -= without;
            size -= 1;
        }
    }
    mask
}

impl Policy {
    pub fn source(&self, e: usize) -> usize {
        e / self.letters
    }

    /// Question 7.
    pub fn is_legal(&self) -> bool {
        (1..=16).contains(&self.states)
            && (1..=8).contains(&self.letters)
            && (1..=8).contains(&self.colours)
            && self.initial < self.states
            && self.edges.len() == self.states * self.letters
            && self.edges.len() <= 64
            && self.family.len() == 1 << self.colours
            && self.edges.iter().all(|&(target, colour)| {
                target < self.states && colour.is_none_or(|c| c < self.colours)
            })
    }

    /// The colours on the edges of a set; a quiet edge adds none.
    pub fn colours_of(&self, mask: u64) -> usize {
        let mut set = 0;
        for (e, edge) in self.edges.iter().enumerate() {
            if let (1, Some(colour)) = (mask >> e & 1, edge.1) {
                set |= 1 << colour;
            }
        }
        set
    }

    pub fn accepts(&self, mask: u64) -> bool {
        self.family[self.colours_of(mask)]
    }

    /// The command bytes as hexadecimal text.
    pub fn hex(&self) -> String {
        self.bytes().iter().map(|b| format!("{b:02x}")).collect()
    }

    /// The policy as a record: counts and initial state, 64 targets, 64 colours, a byte for each of the 256 colour sets, and 64 bytes that say which edges are quiet.
    pub fn record(&self) -> [u8; RECORD] {
        let mut out = [0; RECORD];
        out[..4].copy_from_slice(
            &[self.states, self.letters, self.colours, self.initial].map(|x| x as u8),
        );
        for (e, edge) in self.edges.iter().enumerate() {
            out[4 + e] = edge.0 as u8;
            match edge.1 {
                Some(colour) => out[68 + e] = colour as u8,
                None => out[388 + e] = 1,
            }
        }
        for (set, &member) in self.family.iter().enumerate() {
            out[132 + set] = member as u8;
        }
        out
    }

    /// The policy as command bytes.
    pub fn bytes(&self) -> Vec<u8> {
        let mut out = vec![
            1,
            self.states as u8,
            self.letters as u8,
            self.colours as u8,
            self.initial as u8,
        ];
        for (e, &(target, colour)) in self.edges.iter().enumerate() {
            out.push(if colour.is_some() { 2 } else { 4 });
            out.extend([self.source(e), e % self.letters, target].map(|x| x as u8));
            out.extend(colour.map(|c| c as u8));
        }
        for (set, &member) in self.family.iter().enumerate() {
            if member {
                out.extend([3, set as u8]);
            }
        }
        out.push(0);
        out
    }
}

/// The policy of a record, if it is legal.
pub fn from_record(r: &[u8; RECORD]) -> Option<Policy> {
    let [states, letters, colours, initial] = [r[0], r[1], r[2], r[3]].map(|x| x as usize);
    let edges = states * letters;
    let counts = (1..=16).contains(&states)
        && (1..=8).contains(&letters)
        && (1..=8).contains(&colours)
        && edges <= 64
        && initial < states;
    if !counts {
        return None;
    }
    let (targets, rest) = r[4..].split_at(64);
    let (colour, rest) = rest.split_at(64);
    let (family, quiet) = rest.split_at(256);
    let inside =
        (0..edges).all(|e| (targets[e] as usize) < states && (colour[e] as usize) < colours);
    let uncoloured = (0..edges).all(|e| quiet[e] == 0 || colour[e] == 0);
    let zero = [targets, colour, quiet]
        .iter()
        .all(|part| part[edges..].iter().all(|&x| x == 0));
    let sets = family[1 << colours..].iter().all(|&x| x == 0);
    (inside && uncoloured && zero && sets).then(|| Policy {
        states,
        letters,
        colours,
        initial,
        edges: (0..edges)
            .map(|e| {
                let has_colour = quiet[e] == 0;
                (
                    targets[e] as usize,
                    has_colour.then_some(colour[e] as usize),
                )
            })
            .collect(),
        family: family[..1 << colours].iter().map(|&x| x != 0).collect(),
    })
}

/// Reads command bytes: the policy and where the rest begins, or the number and the offset.
pub fn read(bytes: &[u8]) -> Result<(Policy, usize), (Refusal, usize)> {
    let mut policy = Policy::default();
    policy.read(bytes).map(|end| (policy, end))
}

impl Policy {
    /// Reads command bytes into a policy that is kept from call to call: where the rest begins, or the number and the offset. Once the policy has held the largest
    /// counts, nothing is allocated. After a refusal it holds what was read so far.
    pub fn read(&mut self, bytes: &[u8]) -> Result<usize, (Refusal, usize)> {
        let mut at = 0;
        let mut shaped = false;
        let mut given = 0u64;
        loop {
            let refuse = |number| Err((number, at));
            let Some(&code) = bytes.get(at) else {
                return refuse(1);
            };
            let operands = match code {
                0 => 0,
                1 | 2 => 4,
                3 => 1,
                4 => 3,
                _ => return refuse(2),
            };
            if bytes.len() - at - 1 < operands {
                return refuse(1);
            }
            let mut o = [0; 4];
            for (i, &b) in bytes[at + 1..at + 1 + operands].iter().enumerate() {
                o[i] = b as usize;
            }
            if shaped == (code == 1) {
                return refuse(3);
            }
            match code {
                1 => {
                    let within = (1..=16).contains(&o[0])
                        && (1..=8).contains(&o[1])
                        && (1..=8).contains(&o[2])
                        && o[0] * o[1] <= 64
                        && o[3] < o[0];
                    if !within {
                        return refuse(4);
                    }
                    shaped = true;
                    self.clear(o);
                }
                2 | 4 => {
                    let colour = (code == 2).then_some(o[3]);
                    if o[0] >= self.states
                        || o[1] >= self.letters
                        || o[2] >= self.states
                        || colour.is_some_and(|c| c >= self.colours)
                    {
                        return refuse(4);
                    }
                    let e = o[0] * self.letters + o[1];
                    if given >> e & 1 == 1 {
                        return refuse(5);
                    }
                    given |= 1 << e;
                    self.edges[e] = (o[2], colour);
                }
                3 => {
                    if o[0] >= self.family.len() {
                        return refuse(4);
                    }
                    if std::mem::replace(&mut self.family[o[0]], true) {
                        return refuse(5);
                    }
                }
                _ => {
                    if (given.count_ones() as usize) < self.edges.len() {
                        return refuse(6);
                    }
                    return Ok(at + 1);
                }
            }
            at += 1 + operands;
        }
    }

    /// The counts, every edge to state 0 and quiet, an empty family.
    fn clear(&mut self, [states, letters, colours, initial]: [usize; 4]) {
        (self.states, self.letters, self.colours, self.initial) =
            (states, letters, colours, initial);
        self.edges.clear();
        self.edges.resize(states * letters, (0, None));
        self.family.clear();
        self.family.resize(1 << colours, false);
    }
}
