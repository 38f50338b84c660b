//! Numbers as people read them.

/// Tenths of a microgram per litre.
pub fn level(tenths: u16) -> String {
    format!("{}.{} µg/l", tenths / 10, tenths % 10)
}

/// A value, which may be missing.
pub fn level_or_none(tenths: Option<u16>) -> String {
    tenths.map_or("no value".to_string(), level)
}

/// A minute since pitching as days, to the nearest hundredth.
pub fn day(minute: u16) -> String {
    let hundredths = (u32::from(minute) * 100 + 720) / 1440;
    format!("day {}.{:02}", hundredths / 100, hundredths % 100)
}

/// Digits in groups of three.
pub fn grouped(number: usize) -> String {
    let digits = number.to_string();
    let mut text = String::new();
    for (at, digit) in digits.chars().enumerate() {
        if at > 0 && (digits.len() - at).is_multiple_of(3) {
            text.push(',');
        }
        text.push(digit);
    }
    text
}

/// One of a thing, or several.
pub fn count(number: usize, one: &str) -> String {
    match number {
        1 => format!("1 {one}"),
        _ => format!("{} {one}s", grouped(number)),
    }
}

#[cfg(test)]
mod tests {
    use super::*;

    #[test]
    fn as_people_read_them() {
        assert_eq!(level(1035), "103.5 µg/l");
        assert_eq!(level(7), "0.7 µg/l");
        assert_eq!(level_or_none(None), "no value");
        assert_eq!(day(14_400), "day 10.00");
        assert_eq!(day(65_535), "day 45.51");
        assert_eq!(day(7), "day 0.00");
        assert_eq!(day(8), "day 0.01");
        assert_eq!(grouped(32_768), "32,768");
        assert_eq!(grouped(512), "512");
        assert_eq!(count(1, "mark"), "1 mark");
        assert_eq!(count(1024, "reading"), "1,024 readings");
    }
}
