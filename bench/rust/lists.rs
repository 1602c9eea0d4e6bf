//! What both programs share: lists of hexadecimal lines, and the work that the arguments name.
use std::time::Instant;

/// A round of work, which returns a number that depends on all of it. What it needs was made before.
pub type Round<'a> = Box<dyn FnMut() -> u64 + 'a>;

/// A name, how many units a round has, and what makes the round.
pub type Work = (&'static str, fn(&Items) -> usize, for<'a> fn(&'a Items) -> Round<'a>);

/// The bytes of each line, in the two forms that callers have.
pub struct Items {
    pub slices: Vec<Vec<u8>>,
    pub shared: Vec<bytes::Bytes>,
}

impl Items {
    pub fn len(&self) -> usize {
        self.slices.len()
    }
}

fn bytes_of(line: &str) -> Vec<u8> {
    let byte = |at| u8::from_str_radix(&line[at..at + 2], 16).expect("a line isn't hexadecimal");
    (0..line.len() / 2).map(|i| byte(2 * i)).collect()
}

/// `PROGRAM WORK FILE ROUNDS`: prints how many units a round has, the nanoseconds of the shortest of so many, and the
/// sum of what they returned.
pub fn run(works: &[Work]) {
    let args: Vec<String> = std::env::args().collect();
    let [_, name, file, rounds] = &args[..] else { panic!("usage: PROGRAM WORK FILE ROUNDS") };
    let text = std::fs::read_to_string(file).expect("the list can't be read");
    let slices: Vec<_> = text.lines().map(str::trim).filter(|line| !line.is_empty()).map(bytes_of).collect();
    let items = Items { shared: slices.iter().map(|item| item.clone().into()).collect(), slices };
    let (_, units, work) = works.iter().find(|(known, ..)| known == name).expect("no such work");
    let (mut least, mut sum) = (u128::MAX, 0_u64);
    let mut round = work(&items);
    for _ in 0..rounds.parse().expect("ROUNDS isn't a number") {
        let began = Instant::now();
        sum = sum.wrapping_add(round());
        least = least.min(began.elapsed().as_nanos());
    }
    println!("{} {least} {sum}", units(&items));
}

/// 200 numbers below 400, in an order that is the same in each run.
pub fn mixed() -> impl Iterator<Item = u64> {
    let next = |x: &u64| Some(x.wrapping_mul(0x5851_f42d_4c95_7f2d).wrapping_add(0x1405_7b7e_f767_814f));
    std::iter::successors(Some(12345), next).map(|x| (x >> 33) % 400).take(200)
}
