//! Nanoseconds a place, for the Sun and the Moon, alone and in a batch: `cargo run --release --example bench`.

use std::hint::black_box;
use std::time::Instant;

use raddlehue_reference::{arctangent, batch, cosine, place, root, sine, Air, Body, Point, Start};

const START: Start =
    Start { year: 2026, month: 3, day: 1, hour: 0, minute: 0, second: 0, millisecond: 0, ut1: 100, delta_t: 69_200 };
const POINT: Point = Point { longitude: -21_000_000, latitude: 514_000_000, height: 60 };

/// Places in one run, a minute apart in a batch.
const PLACES: u32 = 500;
/// The best of so many runs is printed; they are short, so that some are not disturbed.
const RUNS: u32 = 200;

/// Prints the best time of one of `count` pieces of work.
fn measure(name: &str, count: u32, mut work: impl FnMut()) {
    let best = (0..RUNS)
        .map(|_| {
            let begun = Instant::now();
            work();
            begun.elapsed()
        })
        .min()
        .expect("there are runs");
    println!("{name:<12} {:>9.1} ns", best.as_nanos() as f64 / f64::from(count));
}

fn main() {
    for (name, body) in [("sun", Body::Sun), ("moon", Body::Moon)] {
        measure(&format!("{name} place"), PLACES, || {
            for i in 0..i64::from(PLACES) {
                let start = Start { hour: i % 24, minute: i / 24 % 60, day: 1 + i / 1440 % 28, ..START };
                black_box(place(black_box(start), body, black_box(POINT), Air::None)).expect("accepted");
            }
        });
        let offsets: Vec<u32> = (0..PLACES).map(|i| 60_000 * i).collect();
        let mut azimuths = vec![0; offsets.len()];
        let mut elevations = vec![0; offsets.len()];
        measure(&format!("{name} batch"), PLACES, || {
            batch(START, body, POINT, black_box(&offsets), &mut azimuths, &mut elevations).expect("accepted");
            black_box((&azimuths, &elevations));
        });
    }
    measure_leaf("sine", sine);
    measure_leaf("cosine", cosine);
    measure_leaf("arctangent", |x| arctangent(x % 1_000_000_007, (x + 5) % 998_244_353));
    measure_leaf("root", |x| root(x as u64));
}

/// Prints the best time of a leaf over many numbers, each asked alone.
fn measure_leaf<T>(name: &str, leaf: impl Fn(i64) -> T) {
    const LEAVES: u32 = 20_000;
    measure(name, LEAVES, || {
        for i in 0..i64::from(LEAVES) {
            black_box(leaf(black_box(i * 987_654_321)));
        }
    });
}
