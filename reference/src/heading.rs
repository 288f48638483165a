//! The middle of two azimuths.

use crate::numbers::{reduce, HALF_TURN, TURN};

/// The middle of two reduced azimuths (10⁻⁸ degree) along the short way between them, floored from the end whose
/// way to the other runs clockwise. Refusal 15 when either is not reduced, then 14 when they are opposite.
pub fn middle(a: i64, b: i64) -> Result<i64, u8> {
    let reduced = 0..TURN;
    if !reduced.contains(&a) || !reduced.contains(&b) {
        return Err(15);
    }
    let arc = reduce(b - a);
    if arc == HALF_TURN {
        return Err(14);
    }
    let (from, arc) = if arc < HALF_TURN { (a, arc) } else { (b, TURN - arc) };
    Ok(reduce(from + arc / 2))
}
