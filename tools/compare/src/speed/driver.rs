//! Takes the times: sides in turn, at several places of memory, medians.

use crate::random::Random;
use std::hint::black_box;
use std::time::Instant;

const PAGE: usize = 4096;
/// The times of a call change with the places of its texts, of the lent buffer
/// and of the stack, so each row is measured at so many.
const PLACEMENTS: usize = 16;
/// Samples at each placement. They are many and short: on a machine with other
/// work most of them still run without a break.
const SAMPLES: usize = 15;
/// One sample of one side takes about this long.
const SAMPLE: f64 = 1e5;
/// A side whose single call takes longer than a sample gets so many nanoseconds
/// in all, but five samples at least.
const BUDGET: f64 = PLACEMENTS as f64 * SAMPLES as f64 * SAMPLE;

/// Where the bytes of a call begin within a page, and how deep the stack is.
#[derive(Clone, Copy)]
pub struct Placement {
    pub text: usize,
    pub second: usize,
    pub out: usize,
    pub depth: usize,
}

/// The same ones for every side and every run. The stack begins somewhere else
/// in each run; its depths go through a whole page.
pub fn placements() -> [Placement; PLACEMENTS] {
    let mut random = Random(2_027);
    std::array::from_fn(|depth| Placement {
        text: random.below(PAGE),
        second: random.below(PAGE),
        out: random.below(PAGE),
        depth,
    })
}

/// Bytes that begin at a given place of a page.
pub struct Placed {
    bytes: Vec<u8>,
    start: usize,
    size: usize,
}

impl Placed {
    pub fn room(size: usize, place: usize) -> Placed {
        let bytes = vec![0; size + 2 * PAGE];
        let start = bytes.as_ptr().align_offset(PAGE) + place;
        Placed { bytes, start, size }
    }

    pub fn text(text: &[u8], place: usize) -> Placed {
        let mut placed = Placed::room(text.len(), place);
        placed.get_mut().copy_from_slice(text);
        placed
    }

    pub fn get(&self) -> &[u8] {
        &self.bytes[self.start..self.start + self.size]
    }

    pub fn get_mut(&mut self) -> &mut [u8] {
        &mut self.bytes[self.start..self.start + self.size]
    }
}

/// One side of a row at one placement: makes the call so many times.
pub type Side<'a> = Box<dyn FnMut(u64) + 'a>;
/// Makes a side anew for a placement.
pub type Maker<'a> = Box<dyn Fn(&Placement) -> Side<'a> + 'a>;

/// Nanoseconds a call: the median of the placements' medians, and the placements'
/// tenth and ninetieth percentile.
#[derive(Clone, Copy)]
pub struct Time {
    pub median: f64,
    pub low: f64,
    pub high: f64,
}

/// How a side is measured.
struct Plan {
    /// Calls before a sample that are not timed, as the other sides have just filled the
    /// caches and the branch prediction with theirs.
    before: u64,
    calls: u64,
    samples: usize,
    placements: usize,
}

impl Plan {
    fn of(side: &mut Side) -> Plan {
        let each = roughly(side);
        if each < SAMPLE {
            let calls = (SAMPLE / each) as u64;
            return Plan { before: calls / 8, calls, samples: SAMPLES, placements: PLACEMENTS };
        }
        let all = (BUDGET / each).max(5.0) as usize;
        let placements = all.min(PLACEMENTS);
        Plan { before: 0, calls: 1, samples: all / placements, placements }
    }
}

/// Nanoseconds a call. Of several tries the shortest counts: a break in a single one
/// would make the call look long and leave its samples with too few calls.
fn roughly(side: &mut Side) -> f64 {
    let mut calls = 1;
    loop {
        let first = nanoseconds(side, calls);
        let tries = if first * calls as f64 > 10.0 * SAMPLE { 1 } else { 4 };
        let each = (0..tries).map(|_| nanoseconds(side, calls)).fold(first, f64::min);
        if each * calls as f64 > SAMPLE / 4.0 {
            return each;
        }
        calls *= 2;
    }
}

fn nanoseconds(side: &mut Side, calls: u64) -> f64 {
    let begin = Instant::now();
    side(calls);
    begin.elapsed().as_nanos() as f64 / calls as f64
}

/// Acts with the stack a sixteenth of a page deeper for each level.
#[inline(never)]
pub fn deeper(levels: usize, act: &mut dyn FnMut()) {
    let mut room = [0u8; PAGE / PLACEMENTS - 48];
    black_box(&mut room);
    if levels == 0 {
        act();
    } else {
        deeper(levels - 1, act);
    }
    black_box(&mut room);
}

/// The times of the sides that there are. They take turns, so that a slow moment
/// hits them alike.
pub fn times(makers: &[Option<Maker>]) -> Vec<Option<Time>> {
    let all = placements();
    let plans: Vec<Option<Plan>> =
        makers.iter().map(|maker| maker.as_ref().map(|maker| Plan::of(&mut maker(&all[0])))).collect();
    let mut medians: Vec<Vec<f64>> = vec![Vec::new(); makers.len()];
    for (number, placement) in all.iter().enumerate() {
        let mut sides: Vec<(usize, &Plan, Side)> = Vec::new();
        for (i, (maker, plan)) in makers.iter().zip(&plans).enumerate() {
            if let (Some(maker), Some(plan)) = (maker, plan) {
                if number < plan.placements {
                    sides.push((i, plan, maker(placement)));
                }
            }
        }
        let mut found = Vec::new();
        deeper(placement.depth, &mut || found = samples(&mut sides));
        for ((i, ..), seen) in sides.iter().zip(found) {
            medians[*i].push(median(seen));
        }
    }
    medians.into_iter().map(|seen| (!seen.is_empty()).then(|| Time::of(seen))).collect()
}

/// The samples of each side at one placement.
fn samples(sides: &mut [(usize, &Plan, Side)]) -> Vec<Vec<f64>> {
    let mut seen = vec![Vec::new(); sides.len()];
    for turn in 0..SAMPLES {
        for (seen, (_, plan, side)) in seen.iter_mut().zip(sides.iter_mut()) {
            if turn < plan.samples {
                side(plan.before);
                seen.push(nanoseconds(side, plan.calls));
            }
        }
    }
    seen
}

fn median(mut numbers: Vec<f64>) -> f64 {
    numbers.sort_by(f64::total_cmp);
    numbers[numbers.len() / 2]
}

impl Time {
    pub fn of(mut numbers: Vec<f64>) -> Time {
        numbers.sort_by(f64::total_cmp);
        let at = |part: f64| numbers[((numbers.len() - 1) as f64 * part).round() as usize];
        Time { median: at(0.5), low: at(0.1), high: at(0.9) }
    }

    /// The time of one of `count` things that were done in it.
    pub fn each(self, count: f64) -> Time {
        Time { median: self.median / count, low: self.low / count, high: self.high / count }
    }
}

#[cfg(test)]
mod tests {
    use super::*;

    #[test]
    fn bytes_lie_where_they_are_placed() {
        for placement in placements() {
            let placed = Placed::text(b"hoan", placement.text);
            assert_eq!(placed.get(), b"hoan");
            assert_eq!(placed.get().as_ptr() as usize % PAGE, placement.text);
        }
    }

    #[test]
    fn percentiles_of_few_numbers() {
        let time = Time::of(vec![3.0, 1.0, 2.0]);
        assert_eq!((time.low, time.median, time.high), (1.0, 2.0, 3.0));
        assert_eq!(time.each(2.0).median, 1.0);
    }
}
