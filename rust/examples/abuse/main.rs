//! abuse [ROUNDS [SEED [PAYLOADS DATAGRAMS LISTS]]]: every call with random and damaged bytes and fields. Different
//! calls must agree: from the front or resumed, in borrowed bytes or with packets that own theirs, written and read.
//! Inputs in files, one a line in hexadecimal, are changed.
mod levels;
mod lists;
mod opening;
mod packets;
mod payloads;
mod random;
mod reading;

use random::{Random, Seeds};
use std::{env, fs};

fn unhex(line: &str) -> Option<Vec<u8>> {
    let digits = line.chars().map(|c| c.to_digit(16)).collect::<Option<Vec<_>>>()?;
    let pairs = digits.chunks_exact(2);
    pairs.remainder().is_empty().then(|| pairs.map(|pair| (pair[0] * 16 + pair[1]) as u8).collect())
}

// The lines of a file that are hexadecimal.
fn inputs(file: Option<String>) -> Vec<Vec<u8>> {
    let text = file.map(|file| fs::read_to_string(&file).unwrap_or_else(|why| panic!("{file}: {why}")));
    text.unwrap_or_default().lines().filter_map(unhex).collect()
}

fn main() {
    let mut words = env::args().skip(1);
    let mut number = |normal: u64| words.next().map_or(normal, |word| word.parse().expect("a number"));
    let (rounds, seed) = (number(100_000), number(1));
    let mut file = || inputs(words.next());
    let seeds = Seeds { payloads: file(), datagrams: file(), lists: file() };
    let mut random = Random::new(seed, seeds);
    for round in 0..rounds {
        payloads::frames(&mut random);
        payloads::streams(&mut random);
        payloads::meanings(&mut random);
        packets::cuts(&mut random);
        packets::datagrams(&mut random);
        packets::headers(&mut random);
        packets::negotiations(&mut random);
        opening::opened(&mut random);
        opening::sealed(&mut random);
        levels::opened(&mut random);
        if round % 32 == 0 {
            levels::delivered(&mut random);
        }
        reading::headers(&mut random);
        reading::values(&mut random);
        reading::acks(&mut random);
        reading::fields(&mut random);
        lists::parameters(&mut random);
        lists::sets(&mut random);
    }
    println!("{rounds} rounds");
}
