// A strip of C's numbers for the ordinary Rust version, which has no codes; for the archive's tests and for the reference's.
use raddlehue_reference::{Body, Strip, StripAir};

// The kinds of an air that a strip is not written in. Of measured air a writer is asked no pressure and no temperature: any will do.
pub const MEASURED: StripAir = StripAir::Measured(820.0, 11.0);
pub const CARRIED_OVER: StripAir = StripAir::CarriedOver(1010.0, 10.0);

// Or C's own refusal of an unknown code: 101 for the body's, then 102 for the air's.
pub fn strip_of([air, body, year, month, day, longitude, latitude, step]: [i64; 8]) -> Result<Strip, u32> {
    let body = match body {
        0 => Body::Sun,
        1 => Body::Moon,
        _ => return Err(101),
    };
    let air = match air {
        0 => StripAir::None,
        2 => MEASURED,
        3 => CARRIED_OVER,
        _ => return Err(102),
    };
    Ok(Strip { air, body, year, month, day, longitude, latitude, step })
}
