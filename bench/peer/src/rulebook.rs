//! The supplied rulebook (section 9).
use crate::base::{refuse, rounded, Refusal};

/// How many history days a choice needs; None for an unknown choice.
pub fn days_needed(choice: i64) -> Option<usize> {
    match choice {
        1 | 2 => Some(15),
        3 => Some(0),
        _ => None,
    }
}

/// The adjusted baseline of a quarter. Direction 0 is up, 1 is down.
pub fn baseline(choice: i64, direction: i64, s: i64, l: i64, c: i64) -> Result<i64, Refusal> {
    let within = |sum: i64, limit: i64| (-limit..=limit).contains(&sum);
    if !within(s, 15_000_000) || !within(l, 120_000_000) || !within(c, 8_000_000) || !(0..=1).contains(&direction) {
        return refuse(14, "rulebook", 0, 0);
    }
    let (s, l, c) = (i128::from(s), i128::from(l), i128::from(c));
    let value = match choice {
        1 => {
            let move_ = 15 * c - l;
            let a = if direction == 0 { move_.min(0) } else { move_.max(0) };
            rounded(8 * s + a, 120)
        }
        2 if l == 0 => return refuse(24, "rulebook", 0, 0),
        2 => {
            let value = rounded(s * c * l.signum(), l.abs());
            if !(-10_000_000..=10_000_000).contains(&value) {
                return refuse(24, "rulebook", 0, 0);
            }
            value
        }
        3 => rounded(c, 8),
        _ => return refuse(5, "rulebook", 0, 0),
    };
    Ok(value as i64)
}

#[cfg(test)]
mod tests {
    use super::baseline;
    #[test]
    fn worked() {
        let b = |choice, direction| baseline(choice, direction, -30_000, -240_000, -17_600).unwrap();
        assert_eq!((b(1, 0), b(1, 1), b(2, 0), b(2, 1), b(3, 0)), (-2_200, -2_000, -2_200, -2_200, -2_200));
        assert_eq!(baseline(3, 0, 0, 0, 4), Ok(1));
        assert_eq!(baseline(3, 0, 0, 0, -4), Ok(0));
        let n = |choice, direction, s, l, c| baseline(choice, direction, s, l, c).unwrap_err().number;
        assert_eq!(n(9, 2, 0, 0, 0), 14);
        assert_eq!(n(9, 1, 0, 0, 0), 5);
        assert_eq!(n(2, 1, 0, 0, 0), 24);
        assert_eq!(n(2, 1, 15_000_000, 1, 8_000_000), 24);
        assert_eq!(n(3, 1, 15_000_001, 1, 8_000_000), 14);
    }
}
