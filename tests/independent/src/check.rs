//! Whether the winners and the letters of a game on rows are right, by the definitions: no row leaves a winner's states while it follows its letters, and no cycle
//! there has a least priority that serves the other player.

/// The rows of a game, and the owner of each state.
#[derive(Clone, Copy)]
pub struct Game<'a> {
    pub letters: usize,
    pub targets: &'a [u16],
    pub priorities: &'a [u8],
    pub owners: &'a [u8],
}

/// What is wrong with a solution; the tables have a place for each state.
pub fn solution(game: &Game, winners: &[u8], letters: &[u8]) -> Result<(), String> {
    let states = game.owners.len();
    if winners.len() != states || letters.len() != states {
        return Err(format!(
            "{states} states, {} winners, {} letters",
            winners.len(),
            letters.len()
        ));
    }
    for s in 0..states {
        let (owner, winner, letter) = (game.owners[s], winners[s], letters[s]);
        if winner > 1 {
            return Err(format!("winner {winner} of state {s}"));
        }
        let right = if owner == winner {
            (letter as usize) < game.letters
        } else {
            letter == 255
        };
        if !right {
            return Err(format!(
                "letter {letter} at state {s} of {owner}, won by {winner}"
            ));
        }
        for row in followed(game, letters, s) {
            let t = game.targets[row] as usize;
            if winners[t] != winner {
                return Err(format!(
                    "letter {} leads from state {s} to {t}, from {winner} to {}",
                    row % game.letters,
                    winners[t]
                ));
            }
        }
    }
    for k in 0..=game.priorities.iter().copied().max().unwrap_or(0) {
        // no row leads from one player's states to the other's: the components are those of both
        let part = components(game, letters, k);
        for s in 0..states {
            for row in followed(game, letters, s) {
                let t = game.targets[row] as usize;
                let serves = k % 2;
                if game.priorities[row] == k && part[s] == part[t] && serves != winners[s] {
                    return Err(format!(
                        "letter {} at state {s}, won by {}, is in a cycle of least priority {k}",
                        row % game.letters,
                        winners[s]
                    ));
                }
            }
        }
    }
    Ok(())
}

/// Two built states over one policy state that different players win.
pub fn one_winner(sources: &[u8], winners: &[u8]) -> Result<(), String> {
    let mut first = [None; 256];
    for (s, (&v, &winner)) in sources.iter().zip(winners).enumerate() {
        let (t, other) = *first[v as usize].get_or_insert((s, winner));
        if other != winner {
            return Err(format!(
                "built states {t} and {s} over {v} are won by {other} and {winner}"
            ));
        }
    }
    Ok(())
}

/// The rows of a state: one where the winner has a letter, else all.
fn followed(game: &Game, letters: &[u8], s: usize) -> std::ops::Range<usize> {
    let first = s * game.letters;
    match letters[s] {
        255 => first..first + game.letters,
        a => first + a as usize..first + a as usize + 1,
    }
}

/// A number for each state: that of its strongly connected component under the followed rows of priority k or more.
fn components(game: &Game, letters: &[u8], k: u8) -> Vec<u32> {
    const NEW: u32 = u32::MAX;
    let states = game.owners.len();
    // when each state was met, and the earliest one that is known to be reached from it
    let (mut met, mut low) = (vec![NEW; states], vec![NEW; states]);
    let mut part = vec![NEW; states];
    let (mut open, mut path) = (Vec::new(), Vec::new());
    let mut count = 0;
    for root in 0..states {
        if met[root] != NEW {
            continue;
        }
        path.push((root, followed(game, letters, root)));
        (met[root], low[root]) = (count, count);
        count += 1;
        open.push(root);
        while let Some((s, rows)) = path.last_mut() {
            let s = *s;
            match rows.find(|&row| game.priorities[row] >= k) {
                Some(row) => {
                    let t = game.targets[row] as usize;
                    if met[t] == NEW {
                        (met[t], low[t]) = (count, count);
                        count += 1;
                        open.push(t);
                        path.push((t, followed(game, letters, t)));
                    } else if part[t] == NEW {
                        low[s] = low[s].min(met[t]);
                    }
                }
                None => {
                    path.pop();
                    if let Some(&(before, _)) = path.last() {
                        low[before] = low[before].min(low[s]);
                    }
                    if low[s] == met[s] {
                        while part[s] == NEW {
                            part[open.pop().unwrap()] = met[s];
                        }
                    }
                }
            }
        }
    }
    part
}
