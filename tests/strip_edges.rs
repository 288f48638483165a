// Every sentence on day strips (02, Items 6 and 9) at its edges, through the archive: each refusal with what is just inside and just outside of it, any two at once, and buffers of every size
// about a strip's. A refused call writes nothing.
mod archive;
use archive::*;

const TURN: u32 = 3_600_000_000;
const HEADER_BYTES: usize = 18;

// A strip that nothing refuses, of ten minutes; its azimuths tell their steps.
const GOOD: Header = [0, 1, 2003, 10, 17, -1_051_786_000, 397_424_760, 10];
const STEPS: usize = 144;
const BYTES: usize = HEADER_BYTES + 4 * STEPS;

const POISON_BYTE: u8 = POISON as u8;

fn azimuths() -> Vec<u32> {
    (0..STEPS as u32).map(|step| 16_909_060 + step).collect()
}

fn written(header: &Header, azimuths: &[u32]) -> Vec<u8> {
    let mut bytes = vec![0; HEADER_BYTES + 4 * azimuths.len()];
    assert_eq!(strip_write(header, azimuths, &mut bytes), (0, bytes.len() as i64));
    bytes
}

fn good() -> Vec<u8> {
    written(&GOOD, &azimuths())
}

// The good strip with other bytes at a place.
fn with(at: usize, new: &[u8]) -> Vec<u8> {
    let mut bytes = good();
    bytes[at..at + new.len()].copy_from_slice(new);
    bytes
}

// A strip as a version that had standard air wrote it.
fn old(mut bytes: Vec<u8>) -> Vec<u8> {
    bytes[3] = 1;
    bytes
}

// A strip whose length is that of its bytes, where it has one.
fn of_own_length(mut bytes: Vec<u8>) -> Vec<u8> {
    if let Some(length) = bytes.len().checked_sub(2) {
        bytes[..2].copy_from_slice(&(length as u16).to_be_bytes());
    }
    bytes
}

fn refused(bytes: &[u8], refusal: u32) {
    assert_eq!(strip_read(bytes), (refusal, [POISON; 10]), "{bytes:?}");
}

// The header that is read has the number in that field, and is else the good one.
fn reads(bytes: &[u8], field: usize, number: i64) {
    let mut header = GOOD;
    header[field] = number;
    assert_eq!(strip_read(bytes), (0, as_read(&header)), "{bytes:?}");
}

// ---- the reader

fn lengths() {
    for told in 0..=u16::MAX {
        let bytes = with(0, &told.to_be_bytes());
        assert_eq!(strip_read(&bytes), if usize::from(told) == BYTES - 2 { (0, as_read(&GOOD)) } else { (20, [POISON; 10]) }, "{told}");
    }
    let long = [good(), vec![0; 200]].concat();
    for length in (0..=long.len()).filter(|length| *length != BYTES) {
        refused(&long[..length], 20);
        refused(&of_own_length(long[..length].to_vec()), 20);
    }
    // 15, 16 and 17 with as many bytes, and another version: from 16 on it is looked at
    for (length, refusal) in [(0, 20), (14, 20), (15, 20), (16, 21), (17, 21)] {
        refused(&of_own_length(with(2, &[0])[..2 + length].to_vec()), refusal);
    }
    refused(&[], 20);
    refused(&[0], 20);
    // 18 bytes are a header, and no step has no azimuths
    refused(&of_own_length(good()[..HEADER_BYTES].to_vec()), 20);
}

// Every byte in each field of one byte.
fn bytes_of_fields() {
    for byte in 0..=u8::MAX {
        let number = i64::from(byte);
        if byte == 1 {
            assert_eq!(strip_read(&with(2, &[byte])), (0, as_read(&GOOD)));
        } else {
            refused(&with(2, &[byte]), 21);
        }
        for (at, field, accepted, refusal) in [(3, 0, 0..=1, 22), (4, 1, 0..=1, 22), (7, 3, 1..=12, 23), (8, 4, 1..=31, 23), (17, 7, 10..=10, 25)] {
            let bytes = with(at, &[byte]);
            match byte {
                1 if at == 3 => reads(&bytes, field, CARRIED_OVER),
                _ if accepted.contains(&number) => reads(&bytes, field, number),
                1 | 2 | 5 if at == 17 => refused(&bytes, 20),
                _ => refused(&bytes, refusal),
            }
        }
    }
}

fn years() {
    for year in 0..=u16::MAX {
        let bytes = with(5, &year.to_be_bytes());
        match year {
            1900..=2100 => reads(&bytes, 2, year.into()),
            _ => refused(&bytes, 23),
        }
    }
}

// A date is refused where the day count refuses it.
fn dates() {
    for year in [1899, 1900, 1904, 2000, 2023, 2024, 2100, 2101_i64] {
        for (month, day) in (0..=13).flat_map(|month| (0..=32).map(move |day| (month, day))) {
            let [high, low] = (year as u16).to_be_bytes();
            let mut header = GOOD;
            header[2..5].copy_from_slice(&[year, month, day]);
            let expected = if day_count(year, month, day).0 == 0 { (0, as_read(&header)) } else { (23, [POISON; 10]) };
            assert_eq!(strip_read(&with(5, &[high, low, month as u8, day as u8])), expected, "{year} {month} {day}");
        }
    }
}

fn points() {
    for (at, field, limit) in [(9, 5, 1_800_000_000), (13, 6, 900_000_000_i32)] {
        for number in [0, 1, -1, 255, -256, 65_536, -65_536, limit - 1, limit, -limit] {
            reads(&with(at, &number.to_be_bytes()), field, number.into());
        }
        for number in [limit + 1, -limit - 1, i32::MAX, i32::MIN] {
            refused(&with(at, &number.to_be_bytes()), 24);
        }
    }
}

// Each at every step: of the azimuth bytes alone it is the same.
fn azimuths_at_edges() {
    for step in 0..STEPS {
        for azimuth in [0, 1, 1 << 31, TURN - 1, NO_AZIMUTH] {
            let bytes = with(HEADER_BYTES + 4 * step, &azimuth.to_be_bytes());
            assert_eq!(strip_read(&bytes), (0, as_read(&GOOD)), "{step} {azimuth}");
            assert_eq!(strip_azimuth(&bytes[HEADER_BYTES..], step as u64), (0, azimuth), "{step}");
        }
        for azimuth in [TURN, TURN + 1, NO_AZIMUTH - 1] {
            let bytes = with(HEADER_BYTES + 4 * step, &azimuth.to_be_bytes());
            refused(&bytes, 26);
            assert_eq!(strip_azimuth(&bytes[HEADER_BYTES..], step as u64), (26, POISON as u32), "{step}");
        }
    }
}

// What spoils a strip, in the order in which it is looked for, the length against the step as an azimuth that is missing.
type Spoil<T> = (u32, fn(&mut T));

const SPOILS: [Spoil<Vec<u8>>; 10] = [
    (20, |bytes| bytes[1] ^= 1),
    (21, |bytes| bytes[2] = 2),
    (22, |bytes| bytes[3] = 2),
    (22, |bytes| bytes[4] = 2),
    (23, |bytes| bytes[8] = 32),
    (24, |bytes| bytes[9] = 0x7f),
    (24, |bytes| bytes[13] = 0x7f),
    (25, |bytes| bytes[17] = 3),
    (20, |bytes| *bytes = of_own_length(bytes[..bytes.len() - 4].to_vec())),
    (26, |bytes| bytes[HEADER_BYTES] = 0xff),
];

// Two at once, and all from one on: the first is given.
fn first_of<T>(spoils: &[Spoil<T>], fresh: impl Fn() -> T, refused: impl Fn(T, u32)) {
    for (first, (refusal, spoil)) in spoils.iter().enumerate() {
        let later = &spoils[first + 1..];
        for (_, other) in later {
            let mut spoilt = fresh();
            other(&mut spoilt);
            spoil(&mut spoilt);
            refused(spoilt, *refusal);
        }
        let mut spoilt = fresh();
        for (_, other) in later.iter().rev() {
            other(&mut spoilt);
        }
        spoil(&mut spoilt);
        refused(spoilt, *refusal);
    }
}

// ---- the writer

struct Handed {
    header: Header,
    azimuths: Vec<u32>,
    size: usize,
}

fn handed() -> Handed {
    Handed { header: GOOD, azimuths: azimuths(), size: BYTES }
}

fn not_written(handed: Handed, refusal: u32) {
    let Handed { header, azimuths, size } = handed;
    let mut buffer = vec![POISON_BYTE; size];
    assert_eq!(strip_write(&header, &azimuths, &mut buffer), (refusal, POISON), "{header:?} {size}");
    assert!(buffer.iter().all(|byte| *byte == POISON_BYTE), "{header:?} {size}: written to, and refused");
}

const WRITER_SPOILS: [Spoil<Handed>; 11] = [
    (101, |handed| handed.header[1] = 2),
    (102, |handed| handed.header[0] = 1),
    (23, |handed| handed.header[3] = 13),
    (24, |handed| handed.header[5] = 1_800_000_001),
    (24, |handed| handed.header[6] = -900_000_001),
    (25, |handed| handed.header[7] = 4),
    (20, |handed| handed.azimuths.push(0)),
    (26, |handed| handed.azimuths[0] = TURN),
    (32, |handed| handed.header[0] = 2),
    (32, |handed| handed.header[0] = CARRIED_OVER),
    (28, |handed| handed.size = BYTES - 1),
];

// A field's edges, inside and outside, its extremes, and numbers that have the same low bytes as a good one.
fn writer_fields() {
    let far = |number: i64| [8, 16, 32, 63].map(|bits| number.wrapping_add(1 << bits)).into_iter().chain([i64::MIN, i64::MAX, -1]);
    for (field, inside, outside, refusal) in [
        (0, vec![0], vec![1, 4, 255], 102),
        (0, vec![0], vec![2, CARRIED_OVER], 32),
        (1, vec![0, 1], vec![2, 255], 101),
        (2, vec![1900, 2100], vec![1899, 2101, 0], 23),
        (3, vec![1, 12], vec![0, 13], 23),
        (4, vec![1, 31], vec![0, 32], 23),
        (7, vec![10], vec![0, 3, 4, 6, 9, 11, 20, 255, -10], 25),
    ] {
        for number in inside {
            let mut header = GOOD;
            header[field] = number;
            assert_eq!(strip_read(&written(&header, &azimuths())), (0, as_read(&header)));
        }
        // what is far from a known code is an unknown one
        let far = far(GOOD[field]).filter(|_| refusal != 32);
        for number in outside.into_iter().chain(far) {
            let mut handed = handed();
            handed.header[field] = number;
            not_written(handed, refusal);
        }
    }
    for (field, limit) in [(5, 1_800_000_000), (6, 900_000_000)] {
        for number in [0, 1, -1, limit, -limit] {
            let mut header = GOOD;
            header[field] = number;
            assert_eq!(strip_read(&written(&header, &azimuths())), (0, as_read(&header)));
        }
        for number in [limit + 1, -limit - 1, GOOD[field] + (1 << 32), GOOD[field] - (1 << 32), i64::MIN, i64::MAX] {
            let mut handed = handed();
            handed.header[field] = number;
            not_written(handed, 24);
        }
    }
}

// The least and the greatest number from each field on; the body is judged before the air.
fn writer_extremes() {
    for (field, refusal) in [101, 101, 23, 23, 23, 24, 24, 25].into_iter().enumerate() {
        for extreme in [i64::MIN, i64::MAX] {
            let mut handed = handed();
            handed.header[field..].fill(extreme);
            handed.azimuths.clear();
            handed.size = 0;
            not_written(handed, refusal);
        }
    }
}

fn writer_azimuths() {
    for count in [0, 1, STEPS - 1, STEPS + 1, 2 * STEPS, MINUTES] {
        not_written(Handed { azimuths: vec![0; count], size: 2 * BYTES, ..handed() }, 20);
    }
    for step in 0..STEPS {
        for azimuth in [TURN, TURN + 1, NO_AZIMUTH - 1] {
            let mut handed = handed();
            handed.azimuths[step] = azimuth;
            not_written(handed, 26);
        }
        for azimuth in [0, TURN - 1, NO_AZIMUTH] {
            let mut azimuths = azimuths();
            azimuths[step] = azimuth;
            assert_eq!(written(&GOOD, &azimuths), with(HEADER_BYTES + 4 * step, &azimuth.to_be_bytes()));
        }
    }
    // of each other step one too few, too many, and as many
    for (step, count) in [(1, 1440), (2, 720), (5, 288)] {
        let header = [0, 0, 2003, 10, 17, 0, 0, step];
        for wrong in [STEPS, count - 1, count + 1] {
            not_written(Handed { header, azimuths: vec![0; wrong], size: 6_000 }, 20);
        }
        assert_eq!(strip_read(&written(&header, &vec![0; count])), (0, as_read(&header)));
        not_written(Handed { header, azimuths: vec![0; count], size: HEADER_BYTES + 4 * count - 1 }, 28);
    }
}

// Every size: nothing in one that is too small, the rest of a larger one kept.
fn buffers() {
    for size in 0..BYTES {
        not_written(Handed { size, ..handed() }, 28);
    }
    for size in BYTES..BYTES + 40 {
        let mut buffer = vec![POISON_BYTE; size];
        assert_eq!(strip_write(&GOOD, &azimuths(), &mut buffer), (0, BYTES as i64));
        assert!(buffer == [good(), vec![POISON_BYTE; size - BYTES]].concat(), "{size}");
    }
}

// ---- the azimuth of a step

fn steps() {
    let bytes: Vec<u8> = (0..12).collect();
    for length in 0..=bytes.len() {
        for step in 0..4 {
            let part = &bytes[..length];
            let expected = match step {
                _ if 4 * step + 4 > length => (106, POISON as u32),
                _ => (0, [0x0001_0203, 0x0405_0607, 0x0809_0a0b][step]),
            };
            assert_eq!(strip_azimuth(part, step as u64), expected, "{length} {step}");
        }
    }
    // four times the step begins anew in 64 bits
    for step in [1 << 62, (1 << 62) + 1, 1 << 63, 3 << 62, (1 << 62) - 1, u64::MAX, u64::MAX - 1, 1 << 32, i64::MAX as u64] {
        for length in [0, 3, 4, 12] {
            assert_eq!(strip_azimuth(&bytes[..length], step), (106, POISON as u32), "{step}");
        }
    }
    // no such step is said first
    let bad = TURN.to_be_bytes();
    assert_eq!(strip_azimuth(&bad, 0), (26, POISON as u32));
    assert_eq!([strip_azimuth(&bad, 1), strip_azimuth(&bad[..3], 0)], [(106, POISON as u32); 2]);
}

// ---- two strips

const TODAY: [i64; 3] = [2003, 10, 17];
const TOMORROW: [i64; 3] = [2003, 10, 18];

fn finds(first: &[u8], second: &[u8], date: [i64; 3], which: i64) {
    let length = [first, second][which as usize - 1].len() - HEADER_BYTES;
    assert_eq!(strip_find(first, second, date), (0, [which, HEADER_BYTES as i64, length as i64]), "{date:?}");
}

fn finds_none(first: &[u8], second: &[u8], date: [i64; 3], refusal: u32) {
    assert_eq!(strip_find(first, second, date), (refusal, [POISON; 3]), "{date:?}");
}

fn lookups() {
    let (today, tomorrow) = (good(), old(written(&[0, 0, 2003, 10, 18, 0, 0, 5], &[7; 288])));
    let also_today = old(written(&[0, 0, 2003, 10, 17, 0, 0, 2], &[8; 720]));
    finds(&today, &tomorrow, TODAY, 1);
    finds(&today, &tomorrow, TOMORROW, 2);
    finds(&tomorrow, &today, TODAY, 2);
    finds(&tomorrow, &today, TOMORROW, 1);
    finds(&today, &also_today, TODAY, 1);
    finds(&also_today, &today, TODAY, 1);
    finds(&today, &today, TODAY, 1);
    for field in 0..3 {
        let own = TODAY[field];
        for number in [own - 1, own + 2, own + 256, own + 65_536, own + (1 << 32), 0, -1, i64::MIN, i64::MAX] {
            let mut date = TODAY;
            date[field] = number;
            finds_none(&today, &tomorrow, date, 27);
            finds_none(&today, &today, date, 27);
        }
    }
}

// The first strip's refusal, then the second's, then the date.
fn lookup_refusals() {
    let spoilt = |(_, spoil): &Spoil<Vec<u8>>| {
        let mut bytes = good();
        spoil(&mut bytes);
        bytes
    };
    for one in &SPOILS {
        for date in [TODAY, TOMORROW, [0; 3]] {
            finds_none(&spoilt(one), &good(), date, one.0);
            finds_none(&good(), &spoilt(one), date, one.0);
            finds_none(&spoilt(one), &[], date, one.0);
            finds_none(&[], &spoilt(one), date, 20);
            for other in &SPOILS {
                finds_none(&spoilt(one), &spoilt(other), date, one.0);
            }
        }
    }
    finds_none(&[], &[], TODAY, 20);
    finds_none(&good(), &[], TODAY, 20);
}

// ---- a day's azimuths

// A day's request and its list of so many entries.
fn no_day(numbers: &[i64; 8], body: u32, step: i64, length: usize, refusal: u32) {
    let mut list = vec![POISON as u32; length];
    assert_eq!(day_azimuths(numbers, body, step, &mut list), (refusal, POISON), "{numbers:?} {body} {step} {length}");
    assert!(list.iter().all(|entry| *entry == POISON as u32), "{numbers:?} {body} {step} {length}: written to, and refused");
}

// A day has no clock.
fn day_of([year, month, day, _, _, _, _, ut1, delta_t, longitude, latitude, height]: [i64; 12]) -> [i64; 8] {
    [year, month, day, ut1, delta_t, longitude, latitude, height]
}

fn days() {
    let good = day_of(GOOD_REQUEST);
    for body in [SUN, MOON] {
        for (request, refusal) in wrong_requests().into_iter().filter(|(_, refusal)| *refusal != 4) {
            no_day(&day_of(request), body, 10, STEPS, refusal);
            no_day(&day_of(request), body, 3, 0, refusal);
        }
        for step in [0, -1, 3, 4, 6, 9, 11, 15, 20, 60, 255, 1440, -10, 257, 266, (1 << 32) + 1, i64::MIN + 10, i64::MIN, i64::MAX] {
            no_day(&good, body, step, 0, 25);
            no_day(&good, body, step, MINUTES, 25);
        }
        for (step, count) in [(1, 1440), (2, 720), (5, 288), (10, 144)] {
            for length in [0, 1, count / 2, count - 1] {
                no_day(&good, body, step, length, 28);
            }
        }
    }
    for body in [2, 3, 256, 1 << 31, u32::MAX] {
        no_day(&good, body, 10, STEPS, 101);
        no_day(&[i64::MIN; 8], body, 0, 0, 101);
    }
}

fn main() {
    assert_eq!(strip_read(&good()), (0, as_read(&GOOD)));
    lengths();
    bytes_of_fields();
    years();
    dates();
    points();
    azimuths_at_edges();
    first_of(&SPOILS, good, |bytes, refusal| refused(&bytes, refusal));
    first_of(&SPOILS, || old(good()), |bytes, refusal| refused(&bytes, refusal));
    writer_fields();
    writer_extremes();
    writer_azimuths();
    buffers();
    // air has one number, which is unknown, measured or carried over
    for air in [1, 8, 9] {
        let others = (0..WRITER_SPOILS.len()).filter(|at| *at == air || ![1, 8, 9].contains(at));
        first_of(&others.map(|at| WRITER_SPOILS[at]).collect::<Vec<_>>(), handed, not_written);
    }
    steps();
    lookups();
    lookup_refusals();
    days();
    println!("strip_edges: each refusal of a strip, inside and outside of its edges, and any two at once");
}
