//! Refraction (report 004, equation 42; from where up it is worked, document 02, Item 3), in doubles.

use crate::numbers::{reduce, sine_cosine};
use crate::request::Air;

/// The Sun's radius plus the usual horizon refraction, 0.26667 + 0.5667 degree, below the horizon.
const LOWEST_REFRACTED: i64 = -83_337_000;

/// Refraction in degrees at an elevation in 10⁻⁸ degree: zero without air, and below the lowest elevation at which it
/// is worked, which is the same for both bodies.
///
/// Each operation is done once in double, in the rule's order; the sine and cosine go in as their whole numbers.
pub fn refraction(elevation: i64, air: Air) -> f64 {
    let (pressure, temperature) = match air {
        Air::None => return 0.0,
        Air::Measured(pressure, temperature) => (pressure, temperature),
    };
    if elevation < LOWEST_REFRACTED {
        return 0.0;
    }
    let (sine, cosine) = sine_cosine(lifted(elevation));
    let density = (pressure / 1010.0) * (283.0 / (273.0 + temperature));
    density * ((1.02 * cosine as f64) / (60.0 * sine as f64))
}

/// e + 10.3/(e + 5.11), e in degrees: here in 10⁻⁸ degree, up to whole turns. The divisor is above zero from the lowest
/// elevation up, and unsigned, so that no elevation passes 64 bits.
fn lifted(elevation: i64) -> i64 {
    let divisor = elevation.wrapping_add(511_000_000) as u64;
    reduce(elevation) + (103_000_000_000_000_000 / divisor) as i64
}
