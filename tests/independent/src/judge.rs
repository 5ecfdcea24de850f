//! Judging a stem and a loop by running them until they repeat.

use crate::fast::Mix;
use crate::policy::Policy;
use crate::Refusal;
use std::collections::HashMap;
use std::hash::BuildHasherDefault;

/// The colours that recur and whether they are accepted.
pub fn policy(
    p: &Policy,
    state: usize,
    stem: &[u8],
    period: &[u8],
) -> Result<(usize, bool), Refusal> {
    if !p.is_legal() {
        return Err(7);
    }
    if state >= p.states {
        return Err(11);
    }
    if period.is_empty() {
        return Err(14);
    }
    if stem.iter().chain(period).any(|&a| a as usize >= p.letters) {
        return Err(12);
    }
    let mut v = state;
    for &a in stem {
        v = p.edges[v * p.letters + a as usize].0;
    }
    // when each state began a round, and the colours of each round
    let mut began = [usize::MAX; 16];
    let mut met = Vec::new();
    loop {
        if began[v] != usize::MAX {
            let set = met[began[v]..].iter().fold(0, |s, x| s | x);
            return Ok((set, p.family[set]));
        }
        began[v] = met.len();
        let mut set = 0;
        for &a in period {
            let (target, colour) = p.edges[v * p.letters + a as usize];
            if let Some(colour) = colour {
                set |= 1 << colour;
            }
            v = target;
        }
        met.push(set);
    }
}

/// How many states row tables have, if their lengths are those of some states.
fn states(letters: usize, targets: &[u16], priorities: &[u8]) -> Result<usize, Refusal> {
    let whole = (1..=8).contains(&letters)
        && targets.len() == priorities.len()
        && targets.len() % letters == 0
        && targets.len() / letters <= 65_535;
    if whole {
        Ok(targets.len() / letters)
    } else {
        Err(8)
    }
}

/// One letter over rows: the next state and the priority.
pub fn step(
    letters: usize,
    targets: &[u16],
    priorities: &[u8],
    state: u16,
    letter: u8,
) -> Result<(u16, u8), Refusal> {
    let states = states(letters, targets, priorities)?;
    if state as usize >= states {
        return Err(11);
    }
    if letter as usize >= letters {
        return Err(12);
    }
    let row = state as usize * letters + letter as usize;
    if targets[row] as usize >= states {
        return Err(13);
    }
    Ok((targets[row], priorities[row]))
}

/// The least priority that recurs.
pub fn rows(
    letters: usize,
    targets: &[u16],
    priorities: &[u8],
    state: usize,
    stem: &[u8],
    period: &[u8],
) -> Result<u8, Refusal> {
    let states = states(letters, targets, priorities)?;
    if state >= states {
        return Err(11);
    }
    if period.is_empty() {
        return Err(14);
    }
    if stem.iter().chain(period).any(|&a| a as usize >= letters) {
        return Err(12);
    }
    let move_on = |s: usize, a: u8| {
        let row = s * letters + a as usize;
        let t = targets[row] as usize;
        if t < states {
            Ok((t, priorities[row]))
        } else {
            Err(13)
        }
    };
    let mut s = state;
    for &a in stem {
        s = move_on(s, a)?.0;
    }
    let mut began: HashMap<u64, usize, BuildHasherDefault<Mix>> = HashMap::default();
    let mut met = Vec::new();
    loop {
        if let Some(&from) = began.get(&(s as u64)) {
            return Ok(*met[from..].iter().min().unwrap());
        }
        began.insert(s as u64, met.len());
        let mut least = 255;
        for &a in period {
            let (t, k) = move_on(s, a)?;
            least = least.min(k);
            s = t;
        }
        met.push(least);
    }
}
