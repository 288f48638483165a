//! What was written for an older version does not compile: for version 3 in tenths of a second, for version 4 with standard air.
//!
//! ```compile_fail
//! let start = raddlehue::Start::utc(2003, 10, 17, 19, 30, 30).delta_t_tenths(670);
//! ```
//!
//! ```compile_fail
//! let start = raddlehue::Start { fraction_tenths: 5, ..raddlehue::Start::utc(2003, 10, 17, 19, 30, 30) };
//! ```
//!
//! ```compile_fail
//! let date = raddlehue::Date::utc(2003, 10, 17).ut1_tenths(-4);
//! ```
//!
//! ```compile_fail
//! use raddlehue::{places_into, Body, Point, Start};
//! let greenwich = Point::east_north(0.0, 51.4779, 46);
//! let hourly = places_into(Start::utc(2003, 10, 17, 0, 0, 0), Body::Sun, greenwich, &[0, 36_000], &mut [0; 2], &mut [0; 2]);
//! ```
//!
//! ```compile_fail
//! let tt = raddlehue::instant(raddlehue::Start::utc(2000, 1, 2, 12, 0, 0)).unwrap().tt_tenths;
//! ```
//!
//! ```compile_fail
//! let moon = raddlehue::moon_sums(864_000);
//! ```
//!
//! ```compile_fail
//! let minute = 60 * raddlehue::SECOND;
//! ```
//!
//! ```compile_fail
//! let air = raddlehue::Air::Standard;
//! ```
//!
//! ```compile_fail
//! let air = raddlehue::StripAir::Standard;
//! ```
//!
//! ```compile_fail
//! use raddlehue::{Air, Body, Date, Point, StripHeader};
//! let header = StripHeader::of(Date::utc(2003, 10, 17), Body::Sun, Point::east_north(0.0, 51.4779, 46), 10, Air::None);
//! ```
//!
//! The same with today's names does:
//!
//! ```
//! use raddlehue::*;
//! let start = Start { fraction_ms: 500, ..Start::utc(2003, 10, 17, 19, 30, 30).delta_t_ms(67_000) };
//! let date = Date::utc(2003, 10, 17).ut1_ms(-400);
//! let greenwich = Point::east_north(0.0, 51.4779, 46);
//! let hourly = places_into_ms(start, Body::Sun, greenwich, &[0, 3_600 * SECOND_MS as u32], &mut [0; 2], &mut [0; 2]);
//! let moon = moon_sums_ms(instant(start)?.tt_ms);
//! assert!(hourly.is_ok() && moon.is_ok() && rise_set(date, Body::Sun, greenwich).is_ok());
//! assert_eq!(Air::from(StripHeader::of(date, Body::Sun, greenwich, 10).air), Air::None);
//! # Ok::<(), raddlehue::Refusal>(())
//! ```
