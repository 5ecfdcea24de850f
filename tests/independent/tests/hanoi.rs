//! The reader of the Hanoi format: texts with known answers, documents written out and read back, beginnings of every length, and the policy beside the text's own run.

use independent::hanoi::{begins, longest, parse, read};
use independent::policy::RECORD;
use independent::random::Random;
use independent::texts::{READ, REFUSED};
use independent::{alike, judge};

#[test]
fn known_texts() {
    for (shared, rest) in REFUSED {
        let text = format!("{shared}{rest}");
        let answer = read(text.as_bytes()).map(|p| p.record());
        alike(answer, Err((18, shared.len())), text);
    }
    for &(text, counts, targets, colours, family) in READ {
        let mut record = [0; RECORD];
        record[..4].copy_from_slice(&counts);
        record[4..][..targets.len()].copy_from_slice(targets);
        record[68..][..colours.len()].copy_from_slice(colours);
        for &set in family {
            record[132 + usize::from(set)] = 1;
        }
        let answer = read(text.as_bytes()).map(|p| p.record());
        alike(answer, Ok(record), text);
    }
}

#[test]
fn limits() {
    // so many states, names and different mark sets
    let text = |states: usize, names: usize, mark_sets: usize| {
        let mut text = format!("HOA: v1 States: {states} Start: 0 AP: {names}");
        for name in 0..names {
            text += &format!(" \"{name}\"");
        }
        text += " Acceptance: 32 t --BODY--";
        for e in 0..states << names {
            if e % (1 << names) == 0 {
                text += &format!(" State: {}", e >> names);
            }
            text += &format!(" 0 {{{}}}", e % mark_sets);
        }
        text + " --END--"
    };
    let answer = |states, names, mark_sets| {
        let answer = read(text(states, names, mark_sets).as_bytes());
        answer.map(|p| (p.states, p.letters, p.colours))
    };
    assert_eq!(answer(16, 2, 8), Ok((16, 4, 8)));
    assert_eq!(answer(8, 3, 8), Ok((8, 8, 8)));
    assert_eq!(answer(16, 2, 9), Err((19, 0)));
    assert_eq!(answer(8, 3, 9), Err((19, 0)));
    // 4 is asked before 19
    for mark_sets in [1, 8, 9] {
        assert_eq!(answer(17, 0, mark_sets), Err((4, 0)));
        assert_eq!(answer(9, 3, mark_sets), Err((4, 0)));
        assert_eq!(answer(300, 1, mark_sets), Err((4, 0)));
    }
    // both of texts of the subset alone
    let many = text(17, 0, 9);
    let part = &many.as_bytes()[..many.len() - 1];
    alike(read(part), Err((18, part.len())), &many);
}

#[test]
fn documents_are_read_back() {
    let mut random = Random::new(8);
    for i in 0..3_000 {
        let states = 1 + random.below([3, 20, 130][i % 3]);
        let d = random.document(states, 3);
        let tokens = random.tokens(&d);
        let text = random.spaced(&tokens);
        alike(parse(&text), Some(d), text.escape_ascii());
    }
}

#[test]
fn every_beginning_of_a_text_is_shared() {
    let mut random = Random::new(9);
    for i in 0..300 {
        let states = 1 + random.below([3, 12, 115][i % 3]);
        let d = random.document(states, [3, 1, 0][i % 3]);
        let tokens = random.tokens(&d);
        let text = random.spaced(&tokens);
        for n in 0..=text.len() {
            assert!(begins(&text[..n]), "{}", text[..n].escape_ascii());
        }
    }
}

#[test]
fn lengths_are_those_of_trying_all() {
    let mut random = Random::new(10);
    let mut within = 0;
    for _ in 0..2_000 {
        let states = 1 + random.below(4);
        let d = random.document(states, 2);
        let tokens = random.tokens(&d);
        let text = random.damaged_text(&tokens);
        let most = longest(&text);
        for n in 0..=text.len() {
            alike(begins(&text[..n]), n <= most, text[..n].escape_ascii());
        }
        within += usize::from(most > 0 && most < text.len());
    }
    // most go some way
    assert!(within > 1_000, "{within}");
}

#[test]
fn policy_and_text_agree() {
    let mut random = Random::new(11);
    let mut answers = [0; 20];
    let mut verdicts = [0; 2];
    for _ in 0..4_000 {
        let states = 1 + random.below(18);
        let d = random.document(states, 3);
        let p = match d.policy() {
            Ok(p) => p,
            Err(number) => {
                answers[usize::from(number)] += 1;
                continue;
            }
        };
        answers[0] += 1;
        assert!(p.is_legal(), "{d:?}");
        let plain = !p.family[0] && p.edges.iter().all(|e| e.1.is_some());
        assert!(plain, "{d:?}");
        for _ in 0..5 {
            let (stem, mut period) = (random.letters(p.letters, 5), random.letters(p.letters, 9));
            period.push(random.below(p.letters) as u8);
            let v = random.below(states);
            let (_, yes) = judge::policy(&p, v, &stem, &period).unwrap();
            let (_, holds) = d.judge(v, &stem, &period);
            alike(yes, holds, format!("{d:?} {v} {stem:?} {period:?}"));
            verdicts[usize::from(yes)] += 1;
        }
    }
    assert!([0, 4, 19].iter().all(|&n| answers[n] > 100), "{answers:?}");
    assert!(verdicts.iter().all(|&n| n > 2_000), "{verdicts:?}");
}
