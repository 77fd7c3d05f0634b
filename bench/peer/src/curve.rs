//! Readings, curves and the import text (sections 3, 4).
use crate::base::{refuse, Refusal};

/// None is the mark "estimated"; Some is a measured reading in Wh, A2 - A1.
pub type Reading = Option<i64>;
pub type Curve = Vec<Reading>; // always 96

/// Forming a curve from the lists A2, A1 and marks.
pub fn form(a2: &[i64], a1: &[i64], marks: &[u8]) -> Result<Curve, Refusal> {
    let lengths = a2.len() == 96 && a1.len() == 96 && marks.len() == 96;
    let energies = a2.iter().chain(a1).all(|e| (0..=1_000_000).contains(e));
    if !lengths || !energies || marks.iter().any(|&m| m > 1) {
        return refuse(7, "import", 0, 0);
    }
    Ok((0..96).map(|q| if marks[q] == 1 { None } else { Some(a2[q] - a1[q]) }).collect())
}

pub const NAMES: [&[u8]; 4] = [b"QUARTER", b"A1", b"A2", b"STATE"];

/// The curve and the columns (from 1) of QUARTER, A1, A2, STATE.
pub fn import(text: &[u8]) -> Result<(Curve, [usize; 4]), Refusal> {
    let refuse8 = |column: usize| refuse(8, "import", 1, column as i64);
    let refuse9 = |line: usize, column: usize| refuse(9, "import", line as i64, column as i64);

    if text.len() > 65_535 {
        return refuse8(0);
    }
    let mut at = 0; // the next byte to read

    // Header
    let mut stood = [0usize; 4]; // 0: has not stood
    let mut column = 1;
    let width = loop {
        let Some((name, separator)) = field(text, &mut at) else { return refuse8(0) };
        if let Some(k) = NAMES.iter().position(|n| *n == name) {
            if stood[k] != 0 {
                return refuse8(column);
            }
            stood[k] = column;
        }
        if separator == b';' {
            if column == 16 {
                return refuse8(17);
            }
            column += 1;
        } else {
            if stood.contains(&0) {
                return refuse8(0);
            }
            break column;
        }
    };

    // Rows
    let mut curve = Curve::new();
    for q in 0..96 {
        let line = q + 2;
        let (mut a1, mut a2, mut estimated) = (0, 0, false);
        for column in 1..=width {
            let Some((word, separator)) = field(text, &mut at) else { return refuse9(line, column) };
            let right = match stood.iter().position(|&c| c == column) {
                Some(0) => word == q.to_string().as_bytes(),
                Some(1) => energy(word).map(|e| a1 = e).is_some(),
                Some(2) => energy(word).map(|e| a2 = e).is_some(),
                Some(_) => {
                    estimated = word == b"E";
                    word == b"E" || word == b"M"
                }
                None => true,
            };
            if !right {
                return refuse9(line, column);
            }
            if separator == b'\n' && column < width {
                return refuse9(line, column);
            }
            if separator == b';' && column == width {
                return refuse9(line, width + 1);
            }
        }
        curve.push(if estimated { None } else { Some(a2 - a1) });
    }
    if at < text.len() {
        return refuse9(98, 1);
    }
    Ok((curve, stood))
}

/// The next field and the separator that ends it; None if the text ends before a separator.
fn field<'a>(text: &'a [u8], at: &mut usize) -> Option<(&'a [u8], u8)> {
    let rest = &text[*at..];
    let length = rest.iter().position(|&b| b == b';' || b == b'\n')?;
    *at += length + 1;
    Some((&rest[..length], rest[length]))
}

/// An energy in kWh, such as 12,345, in Wh.
fn energy(word: &[u8]) -> Option<i64> {
    let comma = word.iter().position(|&b| b == b',')?;
    let (whole, decimals) = (&word[..comma], &word[comma + 1..]);
    let digits = |w: &[u8]| w.iter().all(|b| b.is_ascii_digit());
    if !digits(whole) || !digits(decimals) || !(1..=4).contains(&whole.len()) || decimals.len() != 3 {
        return None;
    }
    if whole.len() > 1 && whole[0] == b'0' {
        return None;
    }
    let wh = whole.iter().chain(decimals).fold(0i64, |n, b| 10 * n + i64::from(b - b'0'));
    (wh <= 1_000_000).then_some(wh)
}

#[cfg(test)]
mod tests {
    use super::*;
    #[test]
    fn energies() {
        for (w, e) in [("0,000", 0), ("0,999", 999), ("10,500", 10_500), ("1000,000", 1_000_000), ("0,001", 1), ("12,345", 12_345)] {
            assert_eq!(energy(w.as_bytes()), Some(e));
        }
        for w in [",500", "00,500", "01,000", "1,5", "1,0000", "1.000", "-1,000", "+1,000", "1000,001", " 1,000", "", ",", "1,00,0"] {
            assert_eq!(energy(w.as_bytes()), None, "{w}");
        }
    }
    fn text(header: &str, end: &str) -> String {
        let mut t = format!("{header}{end}");
        for q in 0..96 {
            t += &format!("{q};1,000;M;0,250;x{end}");
        }
        t
    }
    fn places(t: &str) -> (u32, i64, i64) {
        let r = import(t.as_bytes()).unwrap_err();
        (r.number, r.places.0, r.places.1)
    }
    #[test]
    fn texts() {
        let good = text("QUARTER;A2;STATE;A1;", "\n");
        let (curve, columns) = import(good.as_bytes()).unwrap();
        assert_eq!(columns, [1, 4, 2, 3]);
        assert_eq!(curve, vec![Some(750); 96]);
        assert!(import(text("QUARTER;A2;STATE;A1;", "\r\n").as_bytes()).is_ok());
        assert_eq!(places(""), (8, 1, 0));
        assert_eq!(places("QUARTER;A1;A2;STATE"), (8, 1, 0));
        assert_eq!(places("QUARTER;A1;A2;STATE\r\n"), (8, 1, 0));
        assert_eq!(places("QUARTER;A1;A1"), (8, 1, 0));
        assert_eq!(places("QUARTER;A1;A1;"), (8, 1, 3));
        assert_eq!(places("QUARTER;A1;A1\n"), (8, 1, 3));
        assert_eq!(places("QUARTER;A1;A2;STATE;;;;;;;;;;;;;"), (8, 1, 17));
        assert_eq!(places("QUARTER;A1;A2;STATE;;;;;;;;;;;;A1;"), (8, 1, 16));
        assert_eq!(places("QUARTER;A1;A2;STATE\n"), (9, 2, 1));
        assert_eq!(places("QUARTER;A1;A2;STATE\n0;"), (9, 2, 2));
        assert_eq!(places("QUARTER;A1;A2;STATE\n0\n"), (9, 2, 1));
        assert_eq!(places("QUARTER;A1;A2;STATE\n0;0,000;0,000;M;"), (9, 2, 5));
        assert_eq!(places("QUARTER;A1;A2;STATE\n0;0,000;0,000;X;"), (9, 2, 4));
        assert_eq!(places("QUARTER;A1;A2;STATE\n0;0,000;0,000;M\n"), (9, 3, 1));
        assert_eq!(places(&(good.clone() + "\n")), (9, 98, 1));
        assert_eq!(places(&good[..good.len() - 1]), (9, 97, 5));
    }
}
