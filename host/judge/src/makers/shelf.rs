//! Tables to be moved to the other edition: without divisors of their own, with a few of them, of any kind; the same for the same
//! seed.

use crate::dice::Dice;
use crate::drawings::Drawing;
use crate::makers::{bundles, sketches};
use crate::model::Edition;

/// A table part of any kind; every second one has no divisors, or few.
pub fn any(dice: &mut Dice) -> Vec<u8> {
    match dice.below(12) {
        0..=5 => sketches::table(dice),
        6..=8 => few_divisors(dice),
        9 => {
            let part = few_divisors(dice);
            bundles::damaged(dice, part)
        }
        10 => whole(dice, Edition::Second),
        _ => whole(dice, Edition::First),
    }
}

/// A table part without a fault and without a divisor, in an edition.
pub fn whole(dice: &mut Dice, edition: Edition) -> Vec<u8> {
    undivided(dice, edition).bytes()
}

fn undivided(dice: &mut Dice, edition: Edition) -> Drawing {
    let mut drawing = sketches::sound(dice);
    sketches::all_divisors(&mut drawing).for_each(|e| *e = 1);
    drawing.types_byte = edition.types_byte(drawing.edition().1);
    drawing
}

// A table part of the second edition with one to three divisors, which a table perhaps may not have.
fn few_divisors(dice: &mut Dice) -> Vec<u8> {
    let mut drawing = undivided(dice, Edition::Second);
    let count = sketches::all_divisors(&mut drawing).count();
    for _ in 0..dice.between(1, 3) {
        let (at, divisor) = (dice.below(count), bundles::divisor(dice));
        let other = if dice.once_in(8) { dice.one_of(&bundles::DIVISORS) } else { divisor };
        sketches::all_divisors(&mut drawing).skip(at).take(1).for_each(|e| *e = other);
    }
    drawing.bytes()
}
