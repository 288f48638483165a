// Through the horizon, by the archive: where refraction begins (02, Item 3), that it is the report's there too, that nothing jumps above that limit, and that minute by minute a
// body which rises is never shown to fall, nor one that sets to rise.
mod archive;
use archive::*;

const BOULDER: Air = measured(820.0, 11.0);
const DENSEST: Air = measured(1200.0, -80.0);

fn degrees_of(bits: i64) -> f64 {
    f64::from_bits(bits as u64)
}

// ---- elevation by elevation

fn raised(elevation: i64, air: Air) -> f64 {
    let (refusal, bits) = refraction(elevation, air);
    assert_eq!(refusal, 0, "{elevation} {air:?}");
    degrees_of(bits)
}

fn limit() {
    for air in [carried_over(), BOULDER, DENSEST] {
        for elevation in [LOWEST_REFRACTED, LOWEST_REFRACTED + 1, -1, 0, 1] {
            assert!(raised(elevation, air) > 0.0, "{elevation} {air:?}");
        }
        for elevation in [LOWEST_REFRACTED - 1, LOWEST_REFRACTED - 21, -511_000_000, -511_000_001, -9_000_000_000] {
            assert_eq!(raised(elevation, air).to_bits(), 0, "{elevation} {air:?}");
        }
    }
}

// One unit of a sine is worth up to four units of refraction in the densest air, so that one to four units more of elevation may be shown as less, by 3.03 units at most.
// Five units more never are, nor as more than six: nothing jumps. Every 29th elevation up to a degree.
fn steps() -> usize {
    const STEP: i64 = 5;
    const MOST: f64 = 6.0;
    let shown = |elevation: i64| elevation as f64 / 1e8 + raised(elevation, DENSEST);
    let mut count = 0;
    for elevation in (LOWEST_REFRACTED..100_000_000).step_by(29) {
        let rise = (shown(elevation + STEP) - shown(elevation)) * 1e8;
        assert!((0.0..=MOST).contains(&rise), "{elevation}: {rise} units");
        count += 1;
    }
    count
}

// The report's own formula (004, equation 42), by the tangent and in degrees.
fn by_tangent(elevation: i64, air: Air) -> f64 {
    let degrees = elevation as f64 / 1e8;
    let raised = degrees + 10.3 / (degrees + 5.11);
    (air.pressure / 1010.0) * (283.0 / (273.0 + air.temperature)) * 1.02 / (60.0 * raised.to_radians().tan())
}

// The rule, with its whole sines, is near it from the limit to the zenith.
fn report() {
    for air in [BOULDER, DENSEST] {
        for elevation in (LOWEST_REFRACTED..=9_000_000_000).step_by(12_345) {
            let apart = raised(elevation, air) - by_tangent(elevation, air);
            assert!(apart.abs() < 1e-7, "{elevation} {air:?}: {apart} degree");
        }
    }
}

// ---- minute by minute

// Year, month and day, UT1 minus UTC and delta-T.
const DATES: [[i64; 5]; 7] = [
    [1900, 1, 1, 0, -2800],
    [1969, 7, 20, -100, 39_700],
    [2003, 10, 17, 0, 67_000],
    [2024, 3, 20, 0, 69_200],
    [2024, 6, 20, 0, 69_200],
    [2026, 12, 21, 100, 69_100],
    [2100, 12, 31, 900, 200_000],
];

// Longitude, latitude and height: Boulder, Quito, Dunedin, Tromsø, and near either pole, as low and as high as there is.
const POINTS: [[i64; 3]; 6] = [
    [-1_051_786_000, 397_424_760, 1830],
    [-784_678_000, -1_807_000, 2850],
    [1_705_000_000, -455_000_000, 0],
    [189_553_000, 696_492_000, 10],
    [0, 880_000_000, -500],
    [900_000_000, -870_000_000, 9000],
];

// A body on a date over a point.
#[derive(Clone, Copy, Debug)]
struct View {
    numbers: [i64; 8],
    body: u32,
}

impl View {
    // The minutes at which the body rises and sets.
    fn crossings(&self) -> Vec<usize> {
        let (refusal, found) = day(&self.numbers, self.body);
        assert_eq!(refusal, 0, "{self:?}");
        let [rises, rise, sets, set] = found.rise_set;
        [(rises, rise), (sets, set)].into_iter().filter(|(has, _)| *has == 1).map(|(_, minute)| minute as usize).collect()
    }

    // The elevation without refraction, and as it is shown, in degrees.
    fn elevations(&self, minute: usize, air: Air) -> (i64, f64) {
        let request = at_minute(&self.numbers, minute);
        let (refusal, Seen { numbers: [_, elevation], .. }) = place(&request, self.body, air);
        let (shown_refusal, Seen { numbers: [_, shown, _], .. }) = shown_place(&request, self.body, air);
        assert_eq!((refusal, shown_refusal), (0, 0), "{request:?}");
        (elevation, degrees_of(shown))
    }

    // From a quarter of an hour before to a quarter after, minute by minute. Gives how many pairs of neighbours lie above the limit.
    fn through(&self, around: usize, air: Air) -> usize {
        let minutes = around.saturating_sub(15)..=(around + 15).min(MINUTES - 1);
        let seen: Vec<(i64, f64)> = minutes.map(|minute| self.elevations(minute, air)).collect();
        for pair in seen.windows(2) {
            let [(before, shown_before), (after, shown_after)] = [pair[0], pair[1]];
            let is_kept = if before <= after { shown_before <= shown_after } else { shown_before >= shown_after };
            assert!(is_kept, "{self:?} {air:?}, around minute {around}: {pair:?}");
        }
        seen.windows(2).filter(|pair| pair.iter().all(|(elevation, _)| *elevation >= LOWEST_REFRACTED)).count()
    }
}

// How many risings and settings there are, and how many pairs of minutes above the limit.
fn minutes() -> (usize, usize) {
    let airs = [NO_AIR, carried_over(), BOULDER, DENSEST];
    let (mut crossings, mut pairs) = (0, 0);
    for [year, month, day, ut1, delta_t] in DATES {
        for ([longitude, latitude, height], body) in POINTS.into_iter().flat_map(|point| [(point, SUN), (point, MOON)]) {
            let view = View { numbers: [year, month, day, ut1, delta_t, longitude, latitude, height], body };
            for minute in view.crossings() {
                crossings += 1;
                pairs += airs.map(|air| view.through(minute, air)).iter().sum::<usize>();
            }
        }
    }
    (crossings, pairs)
}

fn main() {
    limit();
    report();
    let steps = steps();
    let (crossings, pairs) = minutes();
    assert_eq!((crossings, pairs), (92, 5344));
    println!("horizon: {steps} steps of elevation; {crossings} risings and settings, {pairs} pairs of minutes above the limit: none is shown the other way");
}
