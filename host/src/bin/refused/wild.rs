//! Calls with records that hold anything.

use tivembo::raw::words_mut;

use crate::given::Given;
use crate::legal::legal;
use crate::random::Random;

/// A call in which some or all numbers of some lists are anything.
pub fn wild(random: &mut Random) -> Given {
    let mut given = legal(random);
    let transaction = std::slice::from_mut(&mut given.transaction);
    for numbers in [
        words_mut(&mut given.rules),
        words_mut(&mut given.actions),
        words_mut(&mut given.markers),
        words_mut(transaction),
    ] {
        match random.below(8) {
            0 => numbers
                .iter_mut()
                .for_each(|number| *number = random.bits()),
            1 => numbers
                .iter_mut()
                .for_each(|number| *number = random.wild()),
            2 | 3 => change_some(numbers, random),
            _ => {}
        }
    }
    if random.one_in(8) {
        given.text.fill_with(|| random.bits() as u8);
    }
    if random.one_in(8) {
        given.outcomes.fill_with(|| random.bits() as u8);
    }
    if random.one_in(16) {
        (given.call.phase, given.call.mode) = (random.wild(), random.wild());
    }
    for list in given.lists.each_mut() {
        if random.one_in(16) {
            list.shorten(random.below(list.len() + 1));
        }
    }
    given
}

fn change_some(numbers: &mut [u64], random: &mut Random) {
    for _ in 0..random.below(4) {
        if !numbers.is_empty() {
            numbers[random.below(numbers.len())] = random.wild();
        }
    }
}
