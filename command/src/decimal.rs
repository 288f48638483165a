//! Decimal numbers read and written by hand: whole numbers of a small unit, no floating point and no locale.

#[derive(Debug, PartialEq, Eq)]
pub enum Misread {
    /// Not digits with at most one point between them, and a minus in front where one is meant.
    Form,
    /// More decimals than are kept.
    Decimals,
    /// More than 64 bits hold.
    Size,
}

/// `word` in units of 10 to the minus `decimals`: "-1.5" with 2 decimals is -150.
///
/// A number is digits, with a point and digits after them where need be, and a minus in front where it is below zero. A useless zero in front is refused,
/// since 010 is eight to some programs and ten to others.
pub fn read(word: &str, decimals: usize) -> Result<i64, Misread> {
    let (negative, digits) = match word.strip_prefix('-') {
        Some(rest) => (true, rest),
        None => (false, word),
    };
    let (whole, part) = match digits.split_once('.') {
        Some((whole, part)) if !part.is_empty() => (whole, part),
        Some(_) => return Err(Misread::Form),
        None => (digits, ""),
    };
    let padded = whole.len() > 1 && whole.starts_with('0');
    if whole.is_empty() || padded || !all_digits(whole) || !all_digits(part) {
        return Err(Misread::Form);
    }
    if part.len() > decimals {
        return Err(Misread::Decimals);
    }
    let zeros = std::iter::repeat_n(b'0', decimals - part.len());
    let mut digits = whole.bytes().chain(part.bytes()).chain(zeros);
    let size = digits.try_fold(0i64, |sum, digit| sum.checked_mul(10)?.checked_add(i64::from(digit - b'0')));
    let size = size.ok_or(Misread::Size)?;
    Ok(if negative { -size } else { size })
}

fn all_digits(text: &str) -> bool {
    text.bytes().all(|byte| byte.is_ascii_digit())
}

/// `value` in units of 10 to the minus `decimals`, with all its decimals: -150 with 2 is "-1.50".
pub fn written(value: i64, decimals: u32) -> String {
    let (unit, size) = (10u64.pow(decimals), value.unsigned_abs());
    let sign = if value < 0 { "-" } else { "" };
    match decimals {
        0 => format!("{sign}{size}"),
        _ => format!("{sign}{}.{:0width$}", size / unit, size % unit, width = decimals as usize),
    }
}

/// The same without the zeros at the end, down to `least` decimals: -150 with 2 and at least 1 is "-1.5". Without any there is no point either.
pub fn short(mut value: i64, mut decimals: u32, least: u32) -> String {
    while decimals > least && value % 10 == 0 {
        (value, decimals) = (value / 10, decimals - 1);
    }
    written(value, decimals)
}

/// To the nearest unit that is 10 to the `places` times as large, halves up.
pub fn rounded(value: i64, places: u32) -> i64 {
    let unit = 10i64.pow(places);
    (value + unit / 2).div_euclid(unit)
}

#[cfg(test)]
mod tests {
    use super::*;

    #[test]
    fn numbers_are_read() {
        for (word, decimals, value) in [("0", 0, 0), ("-0", 1, 0), ("45.5", 7, 455_000_000), ("-105.1786", 7, -1_051_786_000)] {
            assert_eq!(read(word, decimals), Ok(value), "{word}");
        }
        assert_eq!(read("36000000000", 0), Ok(36_000_000_000));
        assert_eq!(read("9223372036854775807", 0), Ok(i64::MAX));
        assert_eq!(read("-92233720368.54775807", 8), Ok(-i64::MAX));
        assert_eq!(read("0.1234567", 7), Ok(1_234_567));
    }

    #[test]
    fn what_is_no_number_is_not_read() {
        let words = [
            "", "-", ".", "1.", ".5", "+1", "0,5", "1e1", "0x10", "inf", "nan", "NaN", "--1", "1.2.3", "1 2", " 1", "1 ", "7°30",
            "010", "-01.5", "٣", "1_0",
        ];
        for word in words {
            assert_eq!(read(word, 7), Err(Misread::Form), "{word:?}");
        }
        assert_eq!(read("1.25", 1), Err(Misread::Decimals));
        assert_eq!(read("1.0", 0), Err(Misread::Decimals));
        assert_eq!(read("1234567890123", 7), Err(Misread::Size));
        assert_eq!(read("9223372036854775808", 0), Err(Misread::Size));
    }

    #[test]
    fn numbers_are_written() {
        assert_eq!(written(19_434_024_073, 8), "194.34024073");
        assert_eq!(written(-5, 8), "-0.00000005");
        assert_eq!(written(-150, 2), "-1.50");
        assert_eq!(written(7, 0), "7");
        assert_eq!(written(i64::MIN, 1), "-922337203685477580.8");
        assert_eq!((short(455_000_000, 7, 0), short(0, 7, 0), short(100, 0, 0)), ("45.5".into(), "0".into(), "100".into()));
        assert_eq!((short(-1_800_000_000, 7, 0), short(i64::MIN, 1, 0)), ("-180".into(), "-922337203685477580.8".into()));
        for (milliseconds, seconds) in [
            (0, "0.0"),
            (67_000, "67.0"),
            (67_250, "67.25"),
            (-400, "-0.4"),
            (64_184, "64.184"),
            (-60, "-0.06"),
            (8_000_000, "8000.0"),
        ] {
            assert_eq!(short(milliseconds, 3, 1), seconds);
        }
    }

    #[test]
    fn rounding_goes_to_the_nearest() {
        assert_eq!((rounded(14_999, 4), rounded(15_000, 4), rounded(-5_001, 4), rounded(-5_000, 4)), (1, 2, -1, 0));
    }
}
