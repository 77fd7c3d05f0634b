//! Refusals, rounding, days (sections 1, 2, 13).

/// A refusal: number, layer, two places.
#[derive(Clone, Copy, Debug, PartialEq)]
pub struct Refusal {
    pub number: u32,
    pub layer: &'static str,
    pub places: (i64, i64),
}

pub fn refuse<T>(number: u32, layer: &'static str, a: i64, b: i64) -> Result<T, Refusal> {
    Err(Refusal { number, layer, places: (a, b) })
}

/// The one rounding: n/d to the nearest whole, an exact half to the greater neighbour. d > 0.
pub fn rounded(n: i128, d: i128) -> i128 {
    assert!(d > 0);
    (2 * n + d).div_euclid(2 * d)
}

pub const LAST_DAY: i64 = 36_524;

pub fn day_in_range(day: i64) -> bool {
    (0..=LAST_DAY).contains(&day)
}

pub fn quarters_in_range(q0: i64, q1: i64) -> bool {
    0 <= q0 && q0 < q1 && q1 <= 96
}

pub fn days_of_month(year: i64, month: i64) -> i64 {
    match month {
        2 if year % 4 == 0 => 29,
        2 => 28,
        4 | 6 | 9 | 11 => 30,
        _ => 31,
    }
}

/// The number of a date; the date has to be one of the calendar, 2000 to 2099.
pub fn day_number(year: i64, month: i64, day: i64) -> i64 {
    let before: i64 = (1..month).map(|m| days_of_month(year, m)).sum();
    365 * (year - 2000) + (year - 1997) / 4 + before + day - 1
}

/// The date (year, month, day of the month) of a day in range.
pub fn date_of(day: i64) -> (i64, i64, i64) {
    let (mut year, mut month, mut rest) = (2000, 1, day);
    loop {
        let length = days_of_month(year, month);
        if rest < length {
            return (year, month, rest + 1);
        }
        rest -= length;
        month += 1;
        if month == 13 {
            month = 1;
            year += 1;
        }
    }
}

#[cfg(test)]
mod tests {
    use super::*;
    #[test]
    fn rounding() {
        let r = |n, d| rounded(n, d);
        assert_eq!((r(1, 2), r(-1, 2), r(3, 2), r(-3, 2), r(7, 1), r(-7, 1)), (1, 0, 2, -1, 7, -7));
    }
    #[test]
    fn days() {
        assert_eq!(day_number(2026, 6, 28), 9675);
        assert_eq!(day_number(2099, 12, 31), LAST_DAY);
        assert_eq!(day_number(2000, 1, 1), 0);
        for d in 0..=LAST_DAY {
            let (y, m, k) = date_of(d);
            assert_eq!(day_number(y, m, k), d);
        }
    }
}
