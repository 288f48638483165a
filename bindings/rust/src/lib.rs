//! Where the Sun and the Moon stand: safe functions over Raddlehue's proved archive.
//!
//! ```
//! use raddlehue::{shown_place, Air, Body, Point, Start};
//!
//! let start = Start::utc(2003, 10, 17, 19, 30, 30).delta_t_ms(67_000);
//! let boulder = Point::east_north(-105.1786, 39.742476, 1830);
//! let air = Air::Measured { pressure_mbar: 820.0, temperature_celsius: 11.0 };
//!
//! let sun = shown_place(start, Body::Sun, boulder, air)?;
//! assert_eq!(format!("{:.3?} {:.3}", sun.azimuth_degrees, sun.elevation_degrees), "Some(194.340) 39.888");
//! # Ok::<(), raddlehue::Refusal>(())
//! ```
//!
//! What is easily mistaken is the same everywhere:
//!
//! - **Azimuth** counts from north over east: east is 90 degrees, south 180. A body straight overhead or straight underfoot has none: its azimuth is [`None`], and not the
//!   0 of the north.
//! - **Longitude** is east positive, and latitude north positive.
//! - **Time** is UTC, never a local zone. UT1 minus UTC and delta-T (TT minus UT1) are the caller's to give, in milliseconds.
//! - **Names say their unit**, as in the C header: `_e7` and `_e8` are 10⁻⁷ and 10⁻⁸ degree, `_e10` is 10⁻¹⁰, `_ms` are milliseconds, `_millionths` are of
//!   the Sun's disk. Version 3 counted time in tenths of a second: what was written for it does not compile, since each name that carries a time is another now.
//! - **Air** is none or measured. Version 4 had standard air too; the strips that it wrote in it are read as measured air that was carried over ([`StripAir`]).
//!
//! No function keeps state, reads a clock or panics; each takes about 8 KiB of stack at most, [`rise_set`] 11.5 KB more for its curve, [`plan`] some 12 KB more for the
//! day's azimuths. Every number may be given, and what cannot be answered is a [`Refusal`].
//!
//! The package needs no `std`. The feature `alloc` adds `places_ms` and `strip_to_vec`, and `std`, which is on unless turned off, that and a [`Start`] from a `SystemTime`.
//!
//! The archive is built by `make lib` in the repository; RADDLEHUE_ARCHIVE may name another directory that holds `libraddlehue.a`.
#![no_std]
#![deny(missing_docs, unsafe_code)]
#![deny(clippy::arithmetic_side_effects, clippy::indexing_slicing, clippy::panic, clippy::unwrap_used, clippy::expect_used)]
#![deny(clippy::missing_errors_doc, clippy::must_use_candidate)]

#[cfg(feature = "alloc")]
extern crate alloc;
#[cfg(feature = "std")]
extern crate std;

mod angles;
mod archive;
#[cfg(feature = "std")]
mod clock;
mod day;
mod eclipse;
#[cfg(doctest)]
mod old_names;
mod places;
mod proposal;
mod refusal;
mod request;
mod strip;
mod sums;

pub use angles::{arctangent, cosine, middle, refraction, root, sine, LOWEST_REFRACTED_E8};
pub use day::{day, rise_set, RiseSet, DAY_MINUTES, RISE_SET_E8};
pub use eclipse::{covered_share, eclipse, Eclipse};
#[cfg(feature = "alloc")]
pub use places::places_ms;
pub use places::{direction_in, place, places_into_ms, shown_place, Place, Shown, NO_DIRECTION_E8};
pub use proposal::{judge, plan};
pub use refusal::Refusal;
pub use request::{Air, Body, Date, Point, Start};
#[cfg(feature = "alloc")]
pub use strip::strip_to_vec;
pub use strip::{
    azimuth_in, day_azimuths, find_strip, strip_azimuth, strip_bytes, strip_steps, write_strip, FoundStrip, Strip, StripAir,
    StripHeader, StripStep, StripSteps, Which, NO_AZIMUTH_E7, STRIP_HEADER,
};
pub use sums::{
    day_count, instant, mean_sidereal_ms, moon_sums_ms, nutation_ms, sun_sums_ms, Instant, MoonSums, Nutation, SunSums,
};

/// The version of this package, of the C header and of the archive beside them.
pub const VERSION: &str = env!("CARGO_PKG_VERSION");

/// How many milliseconds a second has.
pub const SECOND_MS: i64 = 1000;

/// How many units of 10⁻⁷ degree, in which a point is given, one degree has.
pub const DEGREE_E7: i64 = 10_000_000;

/// How many units of 10⁻⁸ degree one degree has.
pub const DEGREE_E8: i64 = 100_000_000;

// The example of the package's own page is run too.
#[cfg(doctest)]
#[doc = include_str!("../README.md")]
mod readme {}
