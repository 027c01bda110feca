//! Sections of kind 6.

use super::{count_to, literals, maybe_literal, places, Section};
use crate::random::Random;

/// Now and then without a literal behind the integer places, with no or too great a denominator, or
/// with an item that belongs to another kind or stands twice.
pub fn fraction(random: &mut Random, section: &mut Section) {
    let items = &mut section.items;
    maybe_literal(random, items);
    if random.chance(55) {
        let integer = count_to(random, 6, 20).max(1);
        places(random, items, (0..integer as i32).rev());
        literals(random, items, 2);
        if random.chance(90) {
            items.push([1, random.unit()]);
        }
        literals(random, items, 1);
    }
    let numerator = count_to(random, 5, 20).max(usize::from(!random.chance(2)));
    run(random, items, numerator);
    items.push([24, u16::from(random.chance(1))]);
    if random.chance(40) {
        let number = random.pick(&[1, 2, 7, 8, 16, 99, 100, 512, 998, 999, 999, 1000, 0]);
        items.push([25, number]);
    } else {
        let denominator = random.pick(&[1, 1, 1, 1, 2, 2, 2, 2, 3, 3, 3, 3, 4, 0]);
        run(random, items, denominator);
    }
    literals(random, items, 1);
    if random.chance(8) {
        let at = random.below(items.len() + 1);
        let foreign = [
            [24, 0],
            [25, 8],
            [4, 16],
            [6, 17],
            [7, 0],
            [8, 0],
            [22, 0],
            [1, 47],
            [2, 32],
        ];
        items.insert(at, random.pick(&foreign));
    }
}

/// Places down to power 0 with nothing between.
fn run(random: &mut Random, items: &mut Vec<[u16; 2]>, count: usize) {
    for power in (0..count as u16).rev() {
        items.push([random.pick(&[4, 5, 6]), power + 16]);
    }
}
