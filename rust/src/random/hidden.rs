//! The numbers of hidden attributes, in the many ways in which they can be given.

use super::Random;
use crate::plain::MOST_ATTRIBUTES;

/// Which of n attributes are hidden: none, all, all but one, one or some, in any way of [`hidden_so`].
pub fn hidden(random: &mut Random, n: usize) -> Vec<u16> {
    let mut set: Vec<u16> = (0..n as u16).collect();
    match random.below(8) {
        0 => set.clear(),
        1 => {}
        2 => {
            set.remove(random.below(n));
        }
        3 => set = vec![random.pick(&set)],
        4 => set = vec![n as u16 - 1],
        _ => set.retain(|_| random.one_in(2)),
    }
    hidden_so(random, &set, n)
}

/// These of n attributes, as they may be given: in any order, perhaps some of them twice, perhaps with numbers that no
/// attribute has, perhaps with very many of both.
pub fn hidden_so(random: &mut Random, set: &[u16], n: usize) -> Vec<u16> {
    let mut numbers = set.to_vec();
    let more = match random.below(16) {
        0 => random.pick(&[20, 255, 256, 257, 1_000]),
        1..=5 => 0,
        _ => random.from_to(1, 4),
    };
    for _ in 0..more {
        numbers.push(if set.is_empty() || random.one_in(2) {
            no_attribute(random, n)
        } else {
            random.pick(set)
        });
    }
    match random.below(3) {
        0 => numbers.sort(),
        1 => numbers.sort_by(|a, b| b.cmp(a)),
        _ => random.shuffle(&mut numbers),
    }
    numbers
}

/// A number that none of n attributes has; many would be one's number if they were cut short.
fn no_attribute(random: &mut Random, n: usize) -> u16 {
    let n = n as u16;
    let near = random.below(MOST_ATTRIBUTES) as u16;
    let far = random.pick(&[n, 12, 16, 32, 64, 128, 256, 4_096, 32_768, 65_520]);
    random.pick(&[n, 12, 65_535, far, far + near, far + near])
}
