//! How often queries and keeps ask for a time after the last request (02, wish 2).

use super::Call;
use std::collections::BTreeMap;

/// The calls that ask for a time, and which of their times may be after the last request.
const ASKED: [(&str, &[&str]); 7] = [
    ("position", &ONE),
    ("table", &ONE),
    ("view", &ONE),
    ("net change", &TWO),
    ("units", &ONE),
    ("units between", &TWO),
    ("keep", &ONE),
];
const ONE: [&str; 1] = ["its time"];
const TWO: [&str; 3] = ["the first", "the second", "both"];

/// How far after it. Of two late times the later one counts.
const FAR: [&str; 4] = ["by one", "by little", "far", "the last time there is"];

/// How often which call, by which of its times, and how far.
#[derive(Debug, Default)]
pub struct Late(BTreeMap<[&'static str; 3], u64>);

impl Late {
    /// Notes a call if one of its times is after the last request.
    pub fn note(&mut self, call: &Call, last: u64) {
        let Some((which, t)) = late(call, last) else { return };
        let far = match t - last {
            _ if t == u64::MAX => "the last time there is",
            1 => "by one",
            2..=9 => "by little",
            _ => "far",
        };
        *self.0.entry([call.name(), which, far]).or_default() += 1;
    }

    pub fn add(&mut self, other: Late) {
        other.0.into_iter().for_each(|(kind, often)| *self.0.entry(kind).or_default() += often);
    }

    /// Every kind there is, with how often it was met.
    pub fn all(&self) -> Vec<([&'static str; 3], u64)> {
        let mut all = Vec::new();
        for (name, times) in ASKED {
            for &which in times {
                all.extend(FAR.map(|far| [name, which, far]));
            }
        }
        all.into_iter().map(|kind| (kind, self.0.get(&kind).copied().unwrap_or(0))).collect()
    }
}

/// Which of the call's times are after the last request, and the later one of those.
fn late(call: &Call, last: u64) -> Option<(&'static str, u64)> {
    match *call {
        Call::Position(t) | Call::Table(t, _) | Call::View(t) | Call::Units(t) | Call::Keep(t, _) => {
            (t > last).then_some(("its time", t))
        }
        Call::NetChange(a, b, ..) | Call::UnitsBetween(a, b) => match (a > last, b > last) {
            (true, true) => Some(("both", a.max(b))),
            (true, false) => Some(("the first", a)),
            (false, true) => Some(("the second", b)),
            (false, false) => None,
        },
        _ => None,
    }
}
