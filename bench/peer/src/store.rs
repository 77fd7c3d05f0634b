//! Curve stores by their meaning (sections 5 to 8): ring, journal and keeper differ here only in their parameters.
use crate::base::{day_in_range, refuse, Refusal};
use crate::curve::Curve;
use std::collections::HashMap;

pub struct Store {
    pub width: i64,
    pub capacity: i64,
    pub span: i64,
    floor: i64,
    map: HashMap<(i64, i64), Curve>, // (resource, day)
}

const WILL_NOT_DO: Refusal = Refusal { number: 6, layer: "store", places: (0, 0) };

pub fn check_ring(r: i64, w: i64, words: i128) -> Result<(), Refusal> {
    let fits = (1..=32).contains(&r) && (1..=400).contains(&w) && words == i128::from(r * w * 97);
    if fits { Ok(()) } else { Err(WILL_NOT_DO) }
}

pub fn check_journal(width: i64, bytes: i64) -> Result<(), Refusal> {
    if (1..=32).contains(&width) && bytes >= 387 { Ok(()) } else { Err(WILL_NOT_DO) }
}

pub fn check_keeper(span: i64) -> Result<(), Refusal> {
    if (1..=36_525).contains(&span) { Ok(()) } else { Err(WILL_NOT_DO) }
}

impl Store {
    fn fresh(width: i64, capacity: i64, span: i64) -> Store {
        Store { width, capacity, span, floor: 0, map: HashMap::new() }
    }

    pub fn ring(r: i64, w: i64, words: i128) -> Store {
        match check_ring(r, w, words) {
            Ok(()) => Store::fresh(r, r * w, w),
            Err(_) => Store::fresh(1, 0, 1),
        }
    }

    pub fn journal(width: i64, bytes: i64) -> Store {
        match check_journal(width, bytes) {
            Ok(()) => Store::fresh(width, (bytes / 387).min(12_800), 36_525),
            Err(_) => Store::fresh(1, 0, 1),
        }
    }

    /// A keeper over this store.
    pub fn kept(mut self, span: i64) -> Store {
        let own = if check_keeper(span).is_ok() { span } else { 1 };
        self.span = self.span.min(own);
        self
    }

    pub fn put(&mut self, resource: i64, day: i64, curve: Curve) -> Result<(), Refusal> {
        if !day_in_range(day) {
            return refuse(14, "store", 0, 0);
        }
        if !(0..self.width).contains(&resource) {
            return refuse(10, "store", resource, day);
        }
        if day < self.floor {
            return refuse(11, "store", resource, day);
        }
        if self.get(resource, day).is_some() {
            return refuse(12, "store", resource, day);
        }
        let new_floor = self.floor.max(day - self.span + 1);
        if self.held_from(new_floor) >= self.capacity {
            return refuse(13, "store", resource, day);
        }
        self.map.insert((resource, day), curve);
        self.raise(new_floor);
        Ok(())
    }

    pub fn drop(&mut self, day: i64) -> Result<(), Refusal> {
        if !day_in_range(day) {
            return refuse(14, "store", 0, 0);
        }
        if day > self.floor {
            self.raise(day);
        }
        Ok(())
    }

    fn raise(&mut self, floor: i64) {
        self.floor = floor;
        self.map.retain(|&(_, day), _| day >= floor);
    }

    fn held_from(&self, day: i64) -> i64 {
        self.map.keys().filter(|k| k.1 >= day).count() as i64
    }

    pub fn get(&self, resource: i64, day: i64) -> Option<&Curve> {
        self.map.get(&(resource, day))
    }
}
