//! Cases from a seed. Case number i of a seed is always the same, however many are made: of each ten, four are the next of the exhaustive
//! lists (random ones once those are used up), one is an input with CONNECT and four are other random or damaged digest inputs, and one is an ingress
//! script; of those with CONNECT and of the scripts every second is from an exhaustive list too. A million cases have all that the lists have.

mod chance;
mod digests;
mod every;
mod limits;
mod scripts;
mod tables;

pub use limits::limits;

use crate::notation::Case;
use chance::Chance;

/// How many cases the exhaustive lists have: digest inputs, ingress scripts.
pub fn exhaustive() -> (u64, u64) {
    (every::inputs() + every::connects(), every::scripts())
}

/// Case number i of a seed.
pub fn case(seed: u64, i: u64) -> Case {
    let mut chance = Chance::new(seed, i);
    let (ten, one) = (i / 10, i % 10);
    match one {
        9 if ten % 2 == 0 && ten / 2 < every::scripts() => every::script(shuffled(seed, ten / 2, every::scripts())),
        9 => scripts::script(&mut chance),
        4 if ten % 2 == 0 && ten / 2 < every::connects() => every::connect(shuffled(seed, ten / 2, every::connects())),
        4 => digests::connect(&mut chance),
        0..4 if 4 * ten + one < every::inputs() => every::input(shuffled(seed, 4 * ten + one, every::inputs())),
        _ => digests::input(&mut chance),
    }
}

/// So many bytes, in which one that is lost or out of its place is seen.
fn varied(len: usize) -> Vec<u8> {
    b"0123456789".iter().copied().cycle().take(len).collect()
}

/// The k-th of `all` in an order that the seed chooses, each once: so few cases are a sample, and enough are all.
fn shuffled(seed: u64, k: u64, all: u64) -> u64 {
    let mut chance = Chance::new(seed, u64::MAX);
    let start = chance.below(all);
    let mut step = 1 + chance.below(all - 1);
    while common(step, all) != 1 {
        step += 1;
    }
    ((u128::from(start) + u128::from(k) * u128::from(step)) % u128::from(all)) as u64
}

fn common(a: u64, b: u64) -> u64 {
    if b == 0 {
        a
    } else {
        common(b, a % b)
    }
}
