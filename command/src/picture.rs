//! `raddlehue picture`: a day's paths of the Sun and the Moon over the sky, as an SVG.

mod dome;
mod labels;
mod sheet;
mod story;
mod style;
mod track;

use crate::failure::Failure;
use crate::observer::{self, observer_help, zone_help, Observer};
use crate::rise_set::Days;
use crate::sky::Body;
use crate::time::Moment;
use crate::words::{Command, Words};
use track::Track;

pub const COMMAND: Command = Command {
    name: "picture",
    summary: "a day's paths over the sky, as an SVG",
    positional: &["DATE"],
    flags: &[observer::FLAGS, observer::ZONE],
    help: concat!(
        "raddlehue picture DATE --lat DEG --lon DEG [flags] > FILE.svg

A day's paths of the Sun and the Moon over the sky, as an SVG on standard
output: azimuth across, with the equator's side in the middle (south in the
north, north in the south), elevation upward, without refraction, the zenith at
the top; and when each first rises and sets on that day, or that it does not.
DATE is like 2026-11-15, a day of the zone.

",
        observer_help!(),
        zone_help!(),
        "
  raddlehue picture 2026-11-15 --lat 45.5S --lon 170.5E --zone +13:00 > d.svg
"
    ),
    run,
};

fn run(words: &Words) -> Result<String, Failure> {
    let observer = Observer::read(words)?;
    let midnight = Moment::midnight(words.positional(0), observer::zone(words)?)?;
    let centre = if observer.spot.latitude_e7 < 0 { 0.0 } else { 180.0 };
    let view = observer.view(midnight);
    let tracks = [Track::of(view, Body::Sun, centre)?, Track::of(view, Body::Moon, centre)?];
    let day = |body| Days::of(observer, body).day(midnight);
    let story = story::Story::of(observer, midnight, &tracks, &[day(Body::Sun)?, day(Body::Moon)?]);
    Ok(sheet::drawn(&story, centre, &tracks))
}
