// Straight overhead and straight underfoot, where a body has no azimuth (02, Item 5): every line of tests/vectors/overhead.txt through the archive, as a place, as shown, and in
// batches, where a mark stands for the azimuth. The day's curve has the elevation all the same, and the middle of two azimuths refuses the mark.
use std::env;
use std::fs;

mod archive;
mod vector_lines;
use archive::*;
use vector_lines::PlaceLine;

// How many lines the file has, and for how many of the Sun and of the Moon there is no azimuth.
const LINES: usize = 424;
const ABSENT: [usize; 2] = [94, 95];

// Of these, those in no air and at a whole minute.
const DAYS: usize = 17;

fn has_azimuth(line: &PlaceLine) -> bool {
    line.place.1.has_azimuth == 1
}

// ---- batches

// What a batch's buffers have of a place.
fn entries(numbers: &[i64; 12], body: u32) -> [i64; 2] {
    let (refusal, Seen { has_azimuth, numbers: [azimuth, elevation] }) = place(numbers, body, NO_AIR);
    assert_eq!(refusal, 0, "{numbers:?}");
    [if has_azimuth == 1 { azimuth } else { NO_DIRECTION }, elevation]
}

// From midnight on, each entry the place at its own offset; the rest of the buffers is left alone.
fn batch_from_midnight(line: &PlaceLine, offsets: [u32; 3]) -> [i64; 3] {
    let (mut azimuths, mut elevations) = ([POISON; 4], [POISON; 5]);
    let found = batch(&at_ms(&line.numbers, 0), line.body, &offsets, &mut azimuths, &mut elevations);
    assert_eq!(found, (0, [0, 3]), "{line:?}");
    for (entry, offset) in offsets.into_iter().enumerate() {
        let own = entries(&at_ms(&line.numbers, offset.into()), line.body);
        assert_eq!([azimuths[entry], elevations[entry]], own, "{line:?} {offsets:?} {entry}");
    }
    assert_eq!((azimuths[3], elevations[3], elevations[4]), (POISON, POISON, POISON), "{line:?}");
    [azimuths[0], azimuths[1], azimuths[2]]
}

// The line's moment is the first entry, the second, the last, and each.
fn check_batches(line: &PlaceLine) {
    let [moment, last] = [clock_ms(&line.numbers), LAST_OF_DAY_MS].map(|ms| ms as u32);
    for offsets in [[moment, 0, last], [0, moment, last], [0, last, moment], [moment; 3]] {
        let azimuths = batch_from_midnight(line, offsets);
        for (offset, azimuth) in offsets.into_iter().zip(azimuths) {
            if offset == moment {
                assert_eq!(azimuth == NO_DIRECTION, !has_azimuth(line), "{line:?} {offsets:?}");
            }
        }
        check_middles(&azimuths);
    }
}

// The middle of any two entries, one of which is a mark, or both.
fn check_middles(azimuths: &[i64; 3]) {
    for a in azimuths {
        for b in azimuths.iter().filter(|b| [*a, **b].contains(&NO_DIRECTION)) {
            assert_eq!(middle(*a, *b), (15, POISON), "{a} {b}");
        }
    }
}

// ---- what no caller should ask for

// A request that is refused at such a point writes nothing, and no mark.
fn check_refused(line: &PlaceLine) {
    let mut too_high = line.numbers;
    too_high[11] = 9_001;
    assert_eq!(place(&too_high, line.body, line.air), (9, Seen::UNWRITTEN));
    assert_eq!(shown_place(&too_high, line.body, line.air), (9, Seen::UNWRITTEN));
    let mut buffers = [[POISON; 2]; 2];
    let [azimuths, elevations] = &mut buffers;
    assert_eq!(batch(&too_high, line.body, &[0, 0], azimuths, elevations), (9, [POISON; 2]));
    assert_eq!(batch(&line.numbers, line.body, &[0, 0], azimuths, &mut elevations[..1]), (12, [POISON; 2]));
    if line.numbers[..2] == [2100, 12] {
        assert_eq!(batch(&line.numbers, line.body, &[0, u32::MAX], azimuths, elevations), (13, [1, 0]));
    }
    assert_eq!(buffers, [[POISON; 2]; 2], "{line:?}");
}

// ---- the day

// At a whole minute without an azimuth the day's curve has the place's elevation.
fn check_day(line: &PlaceLine) {
    let [year, month, day_of_month, .., ut1, delta_t, longitude, latitude, height] = line.numbers;
    let (refusal, found) = day(&[year, month, day_of_month, ut1, delta_t, longitude, latitude, height], line.body);
    let minute = clock_ms(&line.numbers) / MINUTE_MS;
    assert_eq!((refusal, found.elevations[minute as usize]), (0, line.place.1.numbers[1]), "{line:?}");
}

fn main() {
    let path = env::args().nth(1).expect("the file of vectors");
    let text = fs::read_to_string(path).unwrap();
    let lines: Vec<PlaceLine> = text.lines().filter(|line| !line.starts_with('#')).map(PlaceLine::of).collect();
    for line in &lines {
        line.check();
        check_batches(line);
        check_refused(line);
    }
    let absent: Vec<&PlaceLine> = lines.iter().filter(|line| !has_azimuth(line)).collect();
    let of = |body| absent.iter().filter(|line| line.body == body).count();
    assert_eq!((lines.len(), [SUN, MOON].map(of)), (LINES, ABSENT));
    let on_the_minute: Vec<_> = absent.iter().filter(|line| line.air.kind == 0 && line.numbers[5..7] == [0, 0]).collect();
    for line in &on_the_minute {
        check_day(line);
    }
    assert_eq!(on_the_minute.len(), DAYS);
    println!("overhead: {LINES} places, {} of them without an azimuth, alone, as shown and in batches; {DAYS} days", absent.len());
}
