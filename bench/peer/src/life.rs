//! The life file (LIFE-FILE.md).
use crate::base::*;
use crate::book::{decimal, Book, Evidence, Terms};
use crate::curve::{form, import, Curve};
use crate::store::{check_journal, check_keeper, check_ring, Store};
use std::io::Write;
use std::path::Path;

/// Where the life stands in its sequence.
enum Stage {
    Empty,
    Stored(Store),
    Kept(Store),
    Terms(Store, Terms),
    Booked(Book),
}

/// An error of the file, of one line.
type Line<T> = Result<T, String>;

/// Runs a life; the error has the line number in it.
pub fn run(text: &[u8], directory: &Path, out: &mut impl Write) -> Result<(), String> {
    let mut stage = Stage::Empty;
    for (k, line) in text.split(|&b| b == b'\n').enumerate() {
        if line.is_empty() || line[0] == b'#' {
            continue;
        }
        let number = k + 1;
        let (next, answers) = call(stage, line, directory).map_err(|e| format!("line {number}: {e}"))?;
        stage = next;
        match answers {
            Ok(answers) => {
                for answer in answers {
                    writeln!(out, "{number} {answer}").unwrap();
                }
            }
            Err(r) => writeln!(out, "{number} refused {} {} {} {}", r.number, r.layer, r.places.0, r.places.1).unwrap(),
        }
    }
    Ok(())
}

fn call(stage: Stage, line: &[u8], directory: &Path) -> Line<(Stage, Result<Vec<String>, Refusal>)> {
    if !line.is_ascii() {
        return Err("a byte that is not ASCII".into());
    }
    if line.ends_with(b"\r") {
        return Err("a carriage return at the end".into());
    }
    let line = std::str::from_utf8(line).unwrap();
    let words: Vec<&str> = line.split(' ').collect();
    if words.contains(&"") {
        return Err("words are parted by one space".into());
    }
    let out_of_sequence = || Err("a call out of sequence".to_string());

    match words[0] {
        "store" => {
            let Stage::Empty = stage else { return out_of_sequence() };
            let (checked, store) = match words[1..] {
                ["ring", width, days] => {
                    let (r, w) = (number(width)?, number(days)?);
                    let memory = i128::from(r) * i128::from(w) * 97;
                    (check_ring(r, w, memory), Store::ring(r, w, memory))
                }
                ["ring", width, days, memory] => {
                    let (r, w, memory) = (number(width)?, number(days)?, i128::from(number(memory)?));
                    (check_ring(r, w, memory), Store::ring(r, w, memory))
                }
                ["journal", width, bytes] => {
                    let (width, bytes) = (number(width)?, number(bytes)?);
                    (check_journal(width, bytes), Store::journal(width, bytes))
                }
                _ => return Err("no such store".into()),
            };
            let answer = checked.map(|_| vec![sizes("store", &store)]);
            Ok((Stage::Stored(store), answer))
        }
        "keep" => {
            let Stage::Stored(store) = stage else { return out_of_sequence() };
            let [_, span] = words[..] else { return Err("keep SPAN".into()) };
            let span = number(span)?;
            let store = store.kept(span);
            let answer = check_keeper(span).map(|_| vec![sizes("keep", &store)]);
            Ok((Stage::Kept(store), answer))
        }
        "terms" => {
            let (store, mut terms) = match stage {
                Stage::Stored(store) | Stage::Kept(store) => (store, Terms::fresh()),
                Stage::Terms(store, terms) => (store, terms),
                _ => return out_of_sequence(),
            };
            let [_, kinds, w0, w1, qc, uf, af, ref feasts @ ..] = words[..] else {
                return Err("terms KINDS W0 W1 QC UF AF [FEAST ..]".into());
            };
            let feasts = feasts.iter().map(|w| day(w)).collect::<Line<Vec<i64>>>()?;
            let answer = terms
                .fill(number(kinds)?, quarter(w0)?, quarter(w1)?, number(qc)?, number(uf)?, number(af)?, &feasts)
                .map(|_| vec!["ok terms".to_string()]);
            Ok((Stage::Terms(store, terms), answer))
        }
        _ => {
            let mut book = match stage {
                Stage::Terms(store, terms) => Book::new(terms, store),
                Stage::Booked(book) => book,
                _ => return out_of_sequence(),
            };
            let answer = book_call(&mut book, &words, directory)?;
            Ok((Stage::Booked(book), answer))
        }
    }
}

fn sizes(word: &str, store: &Store) -> String {
    format!("ok {word} width {} capacity {} span {}", store.width, store.capacity, store.span)
}

fn book_call(book: &mut Book, words: &[&str], directory: &Path) -> Line<Result<Vec<String>, Refusal>> {
    let one = |answer: String| vec![answer];
    Ok(match *words {
        ["register", pod, choice, power] => {
            book.register(pod.as_bytes(), number(choice)?, number(power)?).map(|k| one(format!("ok register {k}")))
        }
        ["enter", resource, d, file] => {
            let (resource, d) = (number(resource)?, day(d)?);
            let text = std::fs::read(directory.join(file)).map_err(|e| format!("{file}: {e}"))?;
            import(&text).and_then(|(curve, [a, b, c, e])| {
                book.enter(resource, d, curve)?;
                Ok(one(format!("ok enter columns QUARTER {a} A1 {b} A2 {c} STATE {e}")))
            })
        }
        ["curve", resource, d, ref values @ ..] if !values.is_empty() => {
            let (resource, d) = (number(resource)?, day(d)?);
            form_values(values)?.and_then(|curve| book.enter(resource, d, curve)).map(|_| one("ok curve".into()))
        }
        ["drop", d] => book.drop(day(d)?).map(|_| one("ok drop".into())),
        ["order", d, q0, q1, direction, qr] => {
            let direction = match direction {
                "up" => 0,
                "down" => 1,
                _ => return Err("a direction is up or down".into()),
            };
            book.order(day(d)?, quarter(q0)?, quarter(q1)?, direction, number(qr)?).map(|k| one(format!("ok order {k}")))
        }
        ["declare", d, q0, q1] => book.declare(day(d)?, quarter(q0)?, quarter(q1)?).map(|_| one("ok declare".into())),
        ["settle", order] => {
            let order = number(order)?;
            book.settle(order).map(|(f, sheet)| {
                let mut lines = one(format!(
                    "ok settle {order} sum {} pTa {} EDa {} SETa {} paid {} pay {}",
                    f.sum, f.pta, f.eda, f.seta, f.paid, f.pay
                ));
                lines.extend(sheet.iter().enumerate().map(|(r, evidence)| match evidence {
                    Evidence::Estimated => format!("evidence {r} estimated"),
                    Evidence::History { days, c, l } => {
                        let dates: String = days.iter().map(|&d| { let (y, m, k) = date_of(d); format!(" {y}-{m:02}-{k:02}") }).collect();
                        format!("evidence {r} days {}{dates} C {c} L {l}", days.len())
                    }
                }));
                lines
            })
        }
        ["month", year, month] => book.month(number(year)?, number(month)?).map(|m| {
            one(format!(
                "ok month AV {} DI {} EDm {} pTm {} SETm {} DPm {} APm {} UPm {} pay {}",
                m.av, m.di, m.edm, m.ptm, m.setm, decimal(m.dpm, 2), m.apm, m.upm, m.pay
            ))
        }),
        ["line", year, month] => book.line(number(year)?, number(month)?).map(|line| one(format!("ok line {line}"))),
        _ => return Err("an unknown call, or a word too many or too few".into()),
    })
}

fn digits(word: &str, length: usize) -> Option<i64> {
    (word.len() == length && word.bytes().all(|b| b.is_ascii_digit())).then(|| word.parse().unwrap())
}

/// Digits only, at most 4294967295; leading zeros do no harm.
fn number(word: &str) -> Line<i64> {
    let malformed = || format!("malformed number {word}");
    if word.is_empty() || !word.bytes().all(|b| b.is_ascii_digit()) {
        return Err(malformed());
    }
    word.parse::<u32>().map(i64::from).map_err(|_| malformed())
}

fn day(word: &str) -> Line<i64> {
    if !word.contains('-') {
        return number(word);
    }
    let malformed = || format!("malformed date {word}");
    let parts: Vec<&str> = word.split('-').collect();
    let [y, m, d] = parts[..] else { return Err(malformed()) };
    match (digits(y, 4), digits(m, 2), digits(d, 2)) {
        (Some(y), Some(m), Some(d))
            if (2000..=2099).contains(&y) && (1..=12).contains(&m) && (1..=days_of_month(y, m)).contains(&d) =>
        {
            Ok(day_number(y, m, d))
        }
        _ => Err(malformed()),
    }
}

fn quarter(word: &str) -> Line<i64> {
    let Some((hours, minutes)) = word.split_once(':') else { return number(word) };
    match (digits(hours, 2), digits(minutes, 2)) {
        (Some(h), Some(m)) if m < 60 && m % 15 == 0 && 60 * h + m <= 24 * 60 => Ok(4 * h + m / 15),
        _ => Err(format!("malformed time {word}")),
    }
}

/// VALUE[*COUNT] .. into a curve.
fn form_values(words: &[&str]) -> Line<Result<Curve, Refusal>> {
    let (mut a2, mut a1, mut marks) = (vec![], vec![], vec![]);
    for word in words {
        let (value, count) = match word.split_once('*') {
            Some((value, count)) => (value, number(count)?),
            None => (*word, 1),
        };
        let (injected, drawn, mark) = match value.strip_prefix('-') {
            _ if value == "E" => (0, 0, 1),
            Some(size) => (0, number(size)?, 0),
            None => (number(value)?, 0, 0),
        };
        for _ in 0..count {
            if marks.len() > 96 {
                break; // too many already
            }
            a2.push(injected);
            a1.push(drawn);
            marks.push(mark);
        }
    }
    Ok(form(&a2, &a1, &marks))
}
