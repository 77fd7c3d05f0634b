//! Terms, the book and its calls, settling, the month and its line (sections 10 to 12).
use crate::base::*;
use crate::curve::Curve;
use crate::rulebook::{baseline, days_needed};
use crate::store::Store;

#[derive(Clone)]
pub struct Terms {
    kinds: i64,
    w0: i64,
    w1: i64,
    qc: i64,
    uf: i64,
    af: i64,
    feasts: Vec<i64>,
}

impl Terms {
    pub fn fresh() -> Terms {
        Terms { kinds: 1, w0: 8, w1: 96, qc: 1, uf: 0, af: 0, feasts: vec![] }
    }

    pub fn fill(&mut self, kinds: i64, w0: i64, w1: i64, qc: i64, uf: i64, af: i64, feasts: &[i64]) -> Result<(), Refusal> {
        let within = (1..=7).contains(&kinds)
            && 8 <= w0 && w0 < w1 && w1 <= 96
            && (1..=128_000).contains(&qc)
            && (0..=100_000).contains(&uf)
            && (0..=100_000).contains(&af)
            && feasts.len() <= 32
            && feasts.iter().all(|&d| day_in_range(d))
            && feasts.windows(2).all(|pair| pair[0] < pair[1]);
        if !within {
            return refuse(1, "book", 0, 0);
        }
        *self = Terms { kinds, w0, w1, qc, uf, af, feasts: feasts.to_vec() };
        Ok(())
    }

    fn kind(&self, day: i64) -> i64 {
        match day % 7 {
            _ if self.feasts.contains(&day) => 4,
            0 => 2,
            1 => 4,
            _ => 1,
        }
    }

    fn among_kinds(&self, day: i64) -> bool {
        self.kind(day) & self.kinds != 0
    }

    /// Within the window, and the day's kind among the kinds.
    fn admit(&self, day: i64, q0: i64, q1: i64) -> bool {
        q0 >= self.w0 && q1 <= self.w1 && self.among_kinds(day)
    }
}

struct Resource {
    pod: Vec<u8>,
    choice: i64,
    power: i64,
}

struct Order {
    day: i64,
    q0: i64,
    q1: i64,
    direction: i64,
    qr: i64,
    settled: Option<Figures>,
}

#[derive(Clone, Copy)]
pub struct Figures {
    pub sum: i64,
    pub eda: i64,
    pub pta: i64,
    pub seta: i64,
    pub paid: i64,
    pub pay: i64,
}

pub enum Evidence {
    Estimated,
    History { days: Vec<i64>, c: i64, l: i64 },
}

pub struct Month {
    pub av: i64,
    pub di: i64,
    pub edm: i64,
    pub ptm: i64,
    pub setm: i64,
    pub dpm: i64, // hundredths of a percent
    pub apm: i64,
    pub upm: i64,
    pub pay: i64,
}

pub struct Book {
    terms: Terms,
    store: Store,
    resources: Vec<Resource>,
    orders: Vec<Order>,
    declarations: Vec<(i64, i64, i64)>, // day, q0, q1
}

impl Book {
    pub fn new(terms: Terms, store: Store) -> Book {
        Book { terms, store, resources: vec![], orders: vec![], declarations: vec![] }
    }

    pub fn register(&mut self, pod: &[u8], choice: i64, power: i64) -> Result<usize, Refusal> {
        let formed = pod.len() == 14 && pod.iter().all(|b| b.is_ascii_uppercase() || b.is_ascii_digit());
        let used = self.resources.iter().any(|r| r.pod == pod);
        if !formed || used || !(1..=4_000).contains(&power) {
            return refuse(2, "book", 0, 0);
        }
        if !self.orders.is_empty() {
            return refuse(3, "book", 0, 0);
        }
        if self.resources.len() as i64 >= self.store.width {
            return refuse(4, "book", 0, 0);
        }
        let choice = if choice == 0 { 1 } else { choice };
        if days_needed(choice).is_none() {
            return refuse(5, "book", 0, 0);
        }
        self.resources.push(Resource { pod: pod.to_vec(), choice, power });
        Ok(self.resources.len() - 1)
    }

    pub fn enter(&mut self, resource: i64, day: i64, curve: Curve) -> Result<(), Refusal> {
        if !day_in_range(day) {
            return refuse(14, "book", 0, 0);
        }
        if resource >= self.resources.len() as i64 {
            return refuse(10, "book", resource, day);
        }
        self.store.put(resource, day, curve)
    }

    pub fn drop(&mut self, day: i64) -> Result<(), Refusal> {
        self.store.drop(day)
    }

    pub fn order(&mut self, day: i64, q0: i64, q1: i64, direction: i64, qr: i64) -> Result<usize, Refusal> {
        let ranges = day_in_range(day) && quarters_in_range(q0, q1) && (0..=1).contains(&direction) && (1..=128_000).contains(&qr);
        if !ranges {
            return refuse(14, "book", 0, 0);
        }
        if !self.terms.admit(day, q0, q1) {
            return refuse(15, "book", 0, 0);
        }
        if let Some(before) = self.orders.last() {
            if 96 * day + q0 < 96 * before.day + before.q1 + 8 {
                return refuse(16, "book", 0, 0);
            }
        }
        if self.orders.len() == 128 {
            return refuse(17, "book", 0, 0);
        }
        self.orders.push(Order { day, q0, q1, direction, qr, settled: None });
        Ok(self.orders.len() - 1)
    }

    pub fn declare(&mut self, day: i64, q0: i64, q1: i64) -> Result<(), Refusal> {
        if !day_in_range(day) || !quarters_in_range(q0, q1) {
            return refuse(14, "book", 0, 0);
        }
        if !self.terms.admit(day, q0, q1) {
            return refuse(15, "book", 0, 0);
        }
        if self.declarations.iter().any(|&(d, a, b)| d == day && a < q1 && q0 < b) {
            return refuse(18, "book", 0, 0);
        }
        if self.declarations.len() == 64 {
            return refuse(19, "book", 0, 0);
        }
        self.declarations.push((day, q0, q1));
        Ok(())
    }

    /// The sheet of the life file has room for 32 resources, so 27 does not come.
    pub fn settle(&mut self, number: i64) -> Result<(Figures, Vec<Evidence>), Refusal> {
        let Some(order) = self.orders.get(number as usize) else { return refuse(20, "book", 0, 0) };
        if order.settled.is_some() {
            return refuse(21, "book", 0, 0);
        }
        let (mut sum, mut some_estimated, mut sheet) = (0, false, vec![]);
        for r in 0..self.resources.len() {
            let (contribution, evidence) = self.contribution(r, order)?;
            sum += contribution;
            some_estimated |= matches!(evidence, Evidence::Estimated);
            sheet.push(evidence);
        }
        let eda = order.qr * (order.q1 - order.q0) * 250;
        let pta = if some_estimated { sum.max(0).min(eda) } else { sum.max(0) };
        let seta = pta.min(eda);
        let paid = if 5 * seta < 3 * eda { 0 } else { seta };
        let pay = self.use_pay(paid);
        let figures = Figures { sum, eda, pta, seta, paid, pay };
        self.orders[number as usize].settled = Some(figures);
        Ok((figures, sheet))
    }

    /// paid energy x UF / 100,000 cents, rounded.
    fn use_pay(&self, paid: i64) -> i64 {
        rounded(i128::from(paid) * i128::from(self.terms.uf), 100_000) as i64
    }

    fn contribution(&self, r: usize, order: &Order) -> Result<(i64, Evidence), Refusal> {
        let resource = &self.resources[r];
        let place = r as i64;
        let ordered = order.q0 as usize..order.q1 as usize;
        let lead = ordered.start - 8..ordered.start;
        let some_estimated = |curve: &Curve| curve[lead.start..ordered.end].iter().any(|reading| reading.is_none());
        let lead_sum = |curve: &Curve| curve[lead.clone()].iter().map(|reading| reading.unwrap()).sum::<i64>();

        let Some(today) = self.store.get(place, order.day) else { return refuse(22, "book", place, order.day) };
        if some_estimated(today) {
            return Ok((resource.power * (order.q1 - order.q0) * 250, Evidence::Estimated));
        }

        let n = days_needed(resource.choice).unwrap();
        let mut days = vec![];
        let mut curves = vec![];
        for day in (0.max(order.day - 400)..order.day).rev() {
            if days.len() == n {
                break;
            }
            if !self.terms.among_kinds(day) || self.orders.iter().any(|o| o.day == day) {
                continue;
            }
            if let Some(curve) = self.store.get(place, day) {
                if !some_estimated(curve) {
                    days.push(day);
                    curves.push(curve);
                }
            }
        }
        if days.len() < n {
            return refuse(23, "book", place, days.len() as i64);
        }

        let c = lead_sum(today);
        let l = curves.iter().map(|curve| lead_sum(curve)).sum::<i64>();
        let mut sum = 0;
        for q in ordered {
            let s = curves.iter().map(|curve| curve[q].unwrap()).sum::<i64>();
            let base = baseline(resource.choice, order.direction, s, l, c).map_err(|refusal| {
                let places = if refusal.number == 24 { (place, q as i64) } else { (0, 0) };
                Refusal { places, ..refusal }
            })?;
            sum += today[q].unwrap() - base;
        }
        if order.direction == 1 {
            sum = -sum;
        }
        Ok((sum, Evidence::History { days, c, l }))
    }

    pub fn month(&self, year: i64, month: i64) -> Result<Month, Refusal> {
        if !(2000..=2099).contains(&year) || !(1..=12).contains(&month) {
            return refuse(25, "book", 0, 0);
        }
        let first = day_number(year, month, 1);
        let days = first..first + days_of_month(year, month);
        let (mut edm, mut ptm, mut setm, mut paid) = (0, 0, 0, 0);
        for (number, order) in self.orders.iter().enumerate() {
            if days.contains(&order.day) {
                let Some(figures) = order.settled else { return refuse(26, "book", number as i64, 0) };
                edm += figures.eda;
                ptm += figures.pta;
                setm += figures.seta;
                paid += figures.paid;
            }
        }
        let terms = &self.terms;
        let av = (terms.w1 - terms.w0) * days.clone().filter(|&d| terms.among_kinds(d)).count() as i64;
        let declared: i64 = self.declarations.iter().filter(|d| days.contains(&d.0)).map(|d| d.2 - d.1).sum();
        let di = av - declared;
        let dpm = if edm == 0 { 10_000 } else { rounded(10_000 * i128::from(ptm), i128::from(edm)) as i64 };
        let apm = rounded(i128::from(di) * i128::from(terms.qc) * i128::from(terms.af), 400) as i64;
        let upm = self.use_pay(paid);
        Ok(Month { av, di, edm, ptm, setm, dpm, apm, upm, pay: apm + upm })
    }

    /// The line of fourteen figures, without its line feed.
    pub fn line(&self, year: i64, month: i64) -> Result<String, Refusal> {
        let m = self.month(year, month)?;
        let share = if m.av == 0 { 10_000 } else { rounded(10_000 * i128::from(m.di), i128::from(m.av)) as i64 };
        let hours = |quarters: i64| decimal(25 * quarters, 2);
        Ok([
            hours(m.av),
            hours(m.av - m.di),
            hours(m.di),
            decimal(share, 2),
            self.terms.qc.to_string(),
            decimal(m.edm, 3),
            decimal(m.ptm, 3),
            decimal(m.setm, 3),
            decimal(m.dpm, 2),
            decimal(self.terms.uf, 4),
            decimal(self.terms.af, 4),
            decimal(m.apm, 2),
            decimal(m.upm, 2),
            decimal(m.pay, 2),
        ]
        .join(";"))
    }
}

/// A number that is not negative, its last `places` digits after a comma.
pub fn decimal(number: i64, places: usize) -> String {
    assert!(number >= 0);
    let digits = format!("{number:0>width$}", width = places + 1);
    let (whole, rest) = digits.split_at(digits.len() - places);
    format!("{whole},{rest}")
}
