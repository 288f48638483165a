// Damaged strips by the million, the archive against the ordinary Rust version (reference/), from a seed.
//
//     fuzz_strips COUNT [SEED]
//
// COUNT damaged strips are read: cut, lengthened, with bits flipped, bytes set and fields at their edges, or random from the start, most of them with their length put right. What
// is still accepted is read step by step and written again, what has air byte 1 without it. With them damaged requests to the writer, lookups in two strips, steps that are none and damaged days. The first
// mismatch ends the run, and so does a refusal, a step, a strip found or an absent azimuth that was never drawn. `make memcheck` runs it under valgrind.
use std::env;

mod archive;
mod compared;
mod compared_strips;
mod random;
mod random_days;
mod random_overhead;
mod random_strips;
mod reference_strips;
use random::{Random, FIELDS};

fn main() {
    let numbers: Vec<u64> = env::args().skip(1).filter_map(|word| word.parse().ok()).collect();
    let count = numbers.first().copied().unwrap_or(1_000_000);
    let mut random = Random(numbers.get(1).copied().unwrap_or(1));
    let mut seen = compared_strips::NO_TALLY;
    for turn in 0..count.div_ceil(compared_strips::DAMAGED) {
        compared_strips::draw(&mut random, turn, &mut seen);
    }
    println!("fuzz_strips: {count} damaged strips, 0 mismatches; answered (0) and refused\n{}", compared_strips::summary(&seen).join("\n"));
}
