//! `raddlehue strip`: a day's azimuths as the bytes that go to and from the phone.

mod file;
pub mod find;
mod forms;
pub mod make;
pub mod show;

use crate::sky::StripAir;

fn air_key(air: StripAir) -> &'static str {
    match air {
        StripAir::None => "none",
        StripAir::Measured { .. } => "measured",
        StripAir::CarriedOver { .. } => "carried_over",
    }
}

fn air_words(air: StripAir) -> String {
    match air {
        StripAir::None => "none".to_string(),
        StripAir::Measured { pressure_mbar, temperature_celsius } => measured_words(pressure_mbar, temperature_celsius),
        StripAir::CarriedOver { pressure_mbar, temperature_celsius } => {
            format!("{}, carried over from an old strip", measured_words(pressure_mbar, temperature_celsius))
        }
    }
}

fn measured_words(pressure_mbar: f64, temperature_celsius: f64) -> String {
    format!("measured at {pressure_mbar} mbar and {temperature_celsius} degrees Celsius")
}
