//! The proved programs print what the independent translator finds, on policies of every shape, valid and damaged, as command bytes and as texts. TRANSLATE and
//! TRANSLATE_HANOI name the programs.

use comparison::{damaged, hex, policies, program, random, root, shuffled, unhex};
use independent::random::Shape;
use independent::{alike, fast, hanoi, policy};
use std::fs;

/// What a program prints of a policy that was read.
fn listing(p: &policy::Policy) -> String {
    match fast::translate(p, 1024, 1024) {
        Err(number) => format!("refused {number}\n"),
        Ok(a) => a.listing(p.letters),
    }
}

fn listed_alike(bytes: &[u8]) {
    let expected = match policy::read(bytes) {
        Err((number, at)) => format!("refused {number} {at}\n"),
        Ok((p, _)) => listing(&p),
    };
    let text = format!("bytes {}", hex(bytes));
    alike(program("translate", bytes), expected, text);
}

fn text_listed_alike(text: &[u8]) {
    let expected = match hanoi::read(text) {
        Err((18, shared)) => format!("refused 18 {shared}\n"),
        Err((number, _)) => format!("refused {number}\n"),
        Ok(p) => listing(&p),
    };
    alike(
        program("translate_hanoi", text),
        expected,
        text.escape_ascii(),
    );
}

#[test]
fn policies_of_every_shape() {
    let mut random = random(2);
    for i in 0..policies(2_000) {
        let shape = Shape::any([4, 8, 16, 32, 64][i as usize % 5]);
        listed_alike(&random.policy(&shape).bytes());
        let p = random.policy(&shape.with_quiet());
        listed_alike(&shuffled(&mut random, &p));
    }
}

#[test]
fn damaged_bytes() {
    let mut random = random(3);
    let shapes = [Shape::any(16), Shape::any(16).with_quiet()];
    for i in 0..policies(4_000) {
        let bytes = random.policy(&shapes[i as usize % 2]).bytes();
        listed_alike(&damaged(&mut random, bytes));
    }
    listed_alike(&[]);
}

#[test]
fn texts() {
    let mut random = random(4);
    for i in 0..policies(1_000) {
        let states = 1 + random.below([3, 18][i as usize % 2]);
        let document = random.document(states, 3);
        let tokens = random.tokens(&document);
        text_listed_alike(&random.spaced(&tokens));
        text_listed_alike(&random.damaged_text(&tokens));
    }
    text_listed_alike(&[]);
    // as much as the program reads
    let mut text = fs::read(root().join("examples/b.hoa")).unwrap();
    text.resize(1_048_576, b' ');
    text_listed_alike(&text);
}

#[test]
fn every_file_of_examples() {
    let mut files = [0; 2];
    for folder in ["examples", "tests/comparison/policies"] {
        for entry in fs::read_dir(root().join(folder)).unwrap() {
            let path = entry.unwrap().path();
            if path.extension().is_some_and(|x| x == "hex") {
                listed_alike(&unhex(&fs::read_to_string(&path).unwrap()));
                files[0] += 1;
            }
            if path.extension().is_some_and(|x| x == "hoa") {
                text_listed_alike(&fs::read(&path).unwrap());
                files[1] += 1;
            }
        }
    }
    assert!(files.iter().all(|&n| n > 0), "{files:?}");
}
