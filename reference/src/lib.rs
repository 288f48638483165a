//! Places of the Sun and the Moon from a point on Earth, by whole-number rules.
//!
//! An ordinary Rust version of the rules of document 01, of the requests of document 02 that have landed, and of the
//! NREL reports that they rest on. It was written from those papers alone, as an independent second program against
//! which the proved code is tested.
//!
//! Units throughout, unless a comment says otherwise:
//!
//! * angles: 10⁻⁸ degree; *reduced* means 0 to 35,999,999,999 by whole turns;
//! * sines and cosines, and vectors made of them: times 10⁹;
//! * time: milliseconds; UT and TT count from 2000-01-01 12:00;
//! * a point's longitude and latitude: 10⁻⁷ degree, longitude east positive; its height: metres;
//! * azimuth: from north over east; a body straight overhead or underfoot has none.
//!
//! Every division is a floor, also below zero.

pub mod batch;
pub mod calendar;
pub mod day;
pub mod eclipse;
pub mod heading;
pub mod instant;
pub mod moon;
pub mod numbers;
pub mod nutation;
pub mod place;
pub mod proposal;
pub mod refraction;
pub mod request;
pub mod sheet;
pub mod sidereal;
pub mod strip;
pub mod sun;
pub mod tables;

pub use batch::{batch, NO_DIRECTION};
pub use calendar::day_count;
pub use day::{day, Date, RiseSet};
pub use eclipse::{covered_share, eclipse, Eclipse};
pub use heading::middle;
pub use moon::{moon, Moon};
pub use numbers::{arctangent, cosine, root, sine};
pub use nutation::{nutation, Nutation};
pub use place::{place, shown_place, Place, Shown};
pub use proposal::{azimuth_curve, judge, judge_against, AzimuthCurve, Proposal};
pub use refraction::refraction;
pub use request::{Air, Body, Point, Start};
pub use sheet::{sheet, sheet_line};
pub use sidereal::mean_sidereal;
pub use strip::{day_azimuths, find_strip, read_strip, strip_azimuth, write_strip, Strip, StripAir, NO_AZIMUTH};
pub use sun::{sun, Sun};
