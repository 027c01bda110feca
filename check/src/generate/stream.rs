//! Streams: a code cut anywhere, fed and ended, and calls behind the end.

use super::{code, room};
use crate::calls::{Held, KEPT};
use crate::case::StreamStep;
use crate::oracle;
use crate::random::Random;

/// Most cuts of a code.
const CUTS: usize = 12;

/// A stream and the calls on it: parts are fed, mostly an end is made, and then perhaps calls that are refused.
pub fn stream(random: &mut Random) -> (Held, Vec<StreamStep>) {
    let code = grown(random);
    let words = oracle::prepare(&code, usize::MAX).words.len();
    let (from, rest) = match random.chance(85) {
        true => (Held::start(), code.as_slice()),
        false => by_hand(random, &code),
    };
    let fed = parts(random, rest).into_iter().map(StreamStep::Feed);
    let mut steps: Vec<StreamStep> = fed.collect();
    if random.chance(90) {
        steps.push(StreamStep::End(room(random, words)));
        for _ in 0..random.below(4) {
            steps.push(behind(random, words));
        }
    }
    (from, steps)
}

/// A stream made by hand, whose numbers may be any, mostly with the front of the code in it; and the rest of the code.
fn by_hand<'a>(random: &mut Random, code: &'a [u16]) -> (Held, &'a [u16]) {
    let most = code.len().min(KEPT);
    let cut = match random.chance(40) {
        true => most,
        false => random.below(most + 1),
    };
    let mut units = std::array::from_fn(|_| random.unit());
    units[..cut].copy_from_slice(&code[..cut]);
    let count = match random.weighted(&[50, 20, 20, 10]) {
        0 => cut as u16,
        1 => random.below(KEPT + 1) as u16,
        2 => random.pick(&[253, 254, 255, 256, 65_535]),
        _ => random.unit(),
    };
    let ended = random.pick(&[0, 0, 0, 0, 1, 2, 256, 65_535]);
    let held = Held {
        units,
        count,
        ended,
    };
    (held, &code[cut..])
}

/// A code; some are made so long that they are near the longest or past it.
fn grown(random: &mut Random) -> Vec<u16> {
    let code = code::code(random);
    if code.is_empty() || random.chance(80) {
        return code;
    }
    let length = match random.below(8) {
        0 => 70_000,
        1 => 255 + random.below(600),
        _ => 250 + random.below(10),
    };
    code.iter().copied().cycle().take(length).collect()
}

/// The code cut at some places, of which several may be one: parts may be empty.
fn parts(random: &mut Random, code: &[u16]) -> Vec<Vec<u16>> {
    let mut cuts: Vec<usize> = (0..random.below(CUTS + 1))
        .map(|_| random.below(code.len() + 1))
        .collect();
    cuts.extend([0, code.len()]);
    cuts.sort_unstable();
    cuts.windows(2)
        .map(|cut| code[cut[0]..cut[1]].to_vec())
        .collect()
}

/// A call behind the end.
fn behind(random: &mut Random, words: usize) -> StreamStep {
    if random.chance(50) {
        return StreamStep::Feed(code::code(random));
    }
    StreamStep::End(room(random, words + 1))
}
