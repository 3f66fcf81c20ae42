//! Time by rounds: in each round every call is measured once, the two codecs by turns, and the shortest time of each is kept.
use crate::codecs::{give_number, give_plain, Call, Pair, Reply};
use std::hint::black_box;
use std::time::Instant;

/// One line of a table: a call of either codec on the same inputs.
pub struct Case {
    pub labels: Vec<String>,
    pub inputs: Vec<&'static [u8]>,
    pub calls: Pair,
}

/// Nanoseconds a call.
#[derive(Clone, Copy)]
pub struct Times {
    pub proved: f64,
    pub second: f64,
}

const ROUNDS: usize = 40;

/// How long a measurement lasts at least, in nanoseconds.
const LASTS: f64 = 200_000.0;

impl Case {
    /// Both codecs give the same number, place, words, length and bytes.
    pub fn agree(&self) {
        for input in &self.inputs {
            let (mut a, mut b) = ([0xA5; 160], [0xA5; 160]);
            let (proved, second) = (self.calls.proved.give(input, &mut a), self.calls.second.give(input, &mut b));
            assert_eq!(proved, second, "{:?}", self.labels);
            assert_eq!(a, b, "{:?}", self.labels);
        }
    }

    /// Which kind of call it is, is settled before the time is taken.
    fn once(&self, call: Call, times: usize) -> f64 {
        match black_box(call) {
            Call::Number(call, number) => self.taken(times, |text, out| give_number(call, text, number, out)),
            Call::Plain(call) => self.taken(times, |given, out| give_plain(call, given, out)),
        }
    }

    fn taken(&self, times: usize, give: impl Fn(&[u8], &mut [u8]) -> Reply) -> f64 {
        let mut out = [0; 160];
        let began = Instant::now();
        for _ in 0..times {
            for input in &self.inputs {
                let _ = black_box(give(black_box(input), black_box(&mut out)));
            }
        }
        began.elapsed().as_nanos() as f64 / (times * self.inputs.len()) as f64
    }

    /// How often the inputs are gone through in one measurement.
    fn times(&self) -> usize {
        let turn = self.once(self.calls.second, 1) * self.inputs.len() as f64;
        (LASTS / turn).ceil() as usize
    }
}

pub fn measure(cases: &[Case]) -> Vec<Times> {
    cases.iter().for_each(Case::agree);
    let times: Vec<usize> = cases.iter().map(Case::times).collect();
    let mut best = vec![Times { proved: f64::MAX, second: f64::MAX }; cases.len()];
    for _ in 0..ROUNDS {
        for ((case, &times), best) in cases.iter().zip(&times).zip(&mut best) {
            best.proved = best.proved.min(case.once(case.calls.proved, times));
            best.second = best.second.min(case.once(case.calls.second, times));
        }
    }
    best
}
