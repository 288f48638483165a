//! The pictures' colours, by day and by night. Text and lines keep the contrast that WCAG AA asks for: 4.5 to 1 and 3 to 1 on every ground they stand on.

pub struct Palette {
    pub page: &'static str,
    pub text: &'static str,
    pub grid: &'static str,
    pub horizon: &'static str,
    pub sun: &'static str,
    pub moon: &'static str,
    /// The grounds of a day's paths.
    pub sky: &'static str,
    pub ground: &'static str,
    /// The grounds of the charts, where lines stand and no text does.
    pub light: &'static str,
    pub dark: &'static str,
}

const LIGHT: Palette = Palette {
    page: "#ffffff",
    text: "#1c2430",
    grid: "#7d8691",
    horizon: "#4a4335",
    sun: "#a33a00",
    moon: "#23508f",
    sky: "#f3f8fd",
    ground: "#eee7da",
    light: "#fff3c9",
    dark: "#b4c1d6",
};

const DARK: Palette = Palette {
    page: "#0e131a",
    text: "#e9eef4",
    grid: "#838d99",
    horizon: "#d2c6ab",
    sun: "#ffb347",
    moon: "#9ac7ff",
    sky: "#141d29",
    ground: "#2b2519",
    light: "#5a4d22",
    dark: "#0a1422",
};

/// A style sheet: what every picture has, a picture's own shapes, and its colours from each palette.
pub fn sheet(shapes: &str, colours: fn(&Palette) -> String) -> String {
    format!(
        "<style>\n\
         text {{ font: 36px Helvetica, Arial, sans-serif }} .title {{ font-size: 44px; font-weight: bold }}\n\
         .middle {{ text-anchor: middle }} .end {{ text-anchor: end }}\n\
         {shapes}{}@media (prefers-color-scheme: dark) {{\n{}}}\n</style>\n",
        colours(&LIGHT),
        colours(&DARK)
    )
}

#[cfg(test)]
mod tests {
    use super::*;

    // By the definition of WCAG 2.
    fn luminance(colour: &str) -> f64 {
        let part = |at: usize| {
            let level = f64::from(u8::from_str_radix(&colour[at..at + 2], 16).unwrap()) / 255.0;
            if level <= 0.04045 {
                level / 12.92
            } else {
                ((level + 0.055) / 1.055).powf(2.4)
            }
        };
        0.2126 * part(1) + 0.7152 * part(3) + 0.0722 * part(5)
    }

    fn contrast(a: &str, b: &str) -> f64 {
        let (a, b) = (luminance(a), luminance(b));
        (a.max(b) + 0.05) / (a.min(b) + 0.05)
    }

    #[test]
    fn the_contrast_is_that_of_wcag_aa() {
        assert!((contrast("#000000", "#ffffff") - 21.0).abs() < 1e-9);
        let reaches = |colours: &[&str], grounds: &[&str], least: f64| {
            for (colour, ground) in colours.iter().flat_map(|colour| grounds.iter().map(move |ground| (colour, ground))) {
                assert!(contrast(colour, ground) >= least, "{colour} on {ground}: {}", contrast(colour, ground));
            }
        };
        for Palette { page, text, grid, horizon, sun, moon, sky, ground, light, dark } in [LIGHT, DARK] {
            reaches(&[text, sun, moon], &[page, sky, ground], 4.5);
            reaches(&[grid, horizon], &[page, sky, ground], 3.0);
            reaches(&[horizon, sun, moon], &[page, light, dark], 3.0);
            reaches(&[text], &[light], 3.0);
        }
    }
}
