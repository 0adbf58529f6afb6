//! Running the cases on all cores, counting them, and making an input that shows a difference small.
use std::panic::{catch_unwind, AssertUnwindSafe};
use std::sync::atomic::{AtomicBool, Ordering};
use std::sync::Mutex;

use crate::compare::{compare, Case, Kind};
use crate::departures::{Outcome, Seen, NAMES};
use crate::random::Random;

#[derive(Clone, Default)]
pub struct Counts {
    pub cases: u64,
    pub departures: [u64; NAMES.len()],
}
impl Counts {
    pub fn add(&mut self, other: &Counts) {
        self.cases += other.cases;
        self.departures.iter_mut().zip(other.departures).for_each(|(own, more)| *own += more);
    }
}

/// A part of a group: what it has counted, and the first case that differs.
pub struct Part<'a> {
    pub number: u32,
    pub random: Random,
    limit: u64,
    counts: Counts,
    case: Case,
    stop: &'a AtomicBool,
    different: Option<Case>,
}
impl Part<'_> {
    pub fn goes_on(&self) -> bool {
        self.counts.cases < self.limit && !self.stop.load(Ordering::Relaxed)
    }
    pub fn read(&mut self, kind: Kind, bytes: &[u8]) {
        self.read_at(kind, vec![], bytes);
    }
    pub fn read_at(&mut self, kind: Kind, numbers: Vec<u32>, bytes: &[u8]) {
        self.case.bytes.clear();
        self.case.bytes.extend_from_slice(bytes);
        self.compare(kind, numbers);
    }
    pub fn write(&mut self, kind: Kind, numbers: Vec<u32>) {
        self.case.bytes.clear();
        self.compare(kind, numbers);
    }
    fn compare(&mut self, kind: Kind, numbers: Vec<u32>) {
        if !self.goes_on() {
            return;
        }
        (self.case.kind, self.case.numbers) = (kind, numbers);
        self.counts.cases += 1;
        match outcome(&self.case) {
            Ok(seen) => (0..NAMES.len()).filter(|at| seen.has(*at)).for_each(|at| self.counts.departures[at] += 1),
            Err(_) => {
                self.different = Some(self.case.clone());
                self.stop.store(true, Ordering::Relaxed);
            }
        }
    }
}

/// A panic that no departure expects is a difference like any other.
fn outcome(case: &Case) -> Outcome<Seen> {
    catch_unwind(AssertUnwindSafe(|| compare(case))).unwrap_or_else(|panic| {
        let message = panic.downcast_ref::<String>().cloned();
        let message = message.or_else(|| panic.downcast_ref::<&str>().map(ToString::to_string));
        Err(format!("panic: {}", message.unwrap_or_default()))
    })
}

/// The parts of a group that are to be run: their numbers, and how many cases each may have at most.
pub struct Work<I, L> {
    pub make: fn(&mut Part),
    pub group: usize,
    pub parts: I,
    pub limit: L,
}

/// Runs them, and answers what they counted and the cases that differ.
pub fn run(work: Work<impl Iterator<Item = u32> + Send, impl Fn(u32) -> u64 + Sync>, seed: u64) -> (Counts, Vec<Case>) {
    let Work { make, group, parts, limit } = work;
    let (parts, stop, total) = (Mutex::new(parts), AtomicBool::new(false), Mutex::new((Counts::default(), vec![])));
    let work = || loop {
        let next = parts.lock().unwrap().next();
        let Some(number) = next.filter(|_| !stop.load(Ordering::Relaxed)) else { return };
        let case = Case { kind: Kind::frame_read, numbers: vec![], bytes: vec![] };
        let random = Random::new(seed, group, number);
        let mut part = Part { number, random, limit: limit(number), counts: Counts::default(), case, stop: &stop, different: None };
        make(&mut part);
        let mut total = total.lock().unwrap();
        total.0.add(&part.counts);
        total.1.extend(part.different);
    };
    let cores = std::thread::available_parallelism().map_or(1, usize::from);
    std::thread::scope(|scope| (0..cores).for_each(|_| drop(scope.spawn(work))));
    total.into_inner().unwrap()
}

/// Numbers to try in place of one: 0, the half, one bit less, one less.
fn lower(number: u32) -> impl Iterator<Item = u32> {
    let less = [0, number / 2, number.saturating_sub(1)];
    less.into_iter().chain((0..32).map(move |bit| number & !(1 << bit)))
}

/// A smaller case that differs too: bytes are taken out and set to 0, and numbers lowered, as long as that helps.
pub fn shrink(mut case: Case) -> (Case, String) {
    let mut told = outcome(&case).err().unwrap_or_default();
    let mut better = |smaller: Case, case: &mut Case| match outcome(&smaller) {
        Err(error) => {
            (*case, told) = (smaller, error);
            true
        }
        Ok(_) => false,
    };
    loop {
        let mut helped = false;
        let mut width = case.bytes.len();
        while width > 0 {
            let mut at = case.bytes.len();
            while at >= width {
                let mut smaller = case.clone();
                smaller.bytes.drain(at - width..at);
                helped |= better(smaller, &mut case);
                at = (at - 1).min(case.bytes.len());
                // With long inputs every place is too many.
                at -= at.saturating_sub(1).min(case.bytes.len() / 512);
            }
            width = if width > 8 { width / 2 } else { width - 1 };
        }
        for at in 0..case.bytes.len().min(4096) {
            for byte in lower(case.bytes[at].into()) {
                if byte < case.bytes[at].into() {
                    let mut smaller = case.clone();
                    smaller.bytes[at] = byte as u8;
                    helped |= better(smaller, &mut case);
                }
            }
        }
        // What says which number is too wide stays as it is.
        let kept = if case.kind == Kind::too_wide { 3 } else { 0 };
        for at in kept..case.numbers.len() {
            for number in lower(case.numbers[at]) {
                if number < case.numbers[at] {
                    let mut smaller = case.clone();
                    smaller.numbers[at] = number;
                    helped |= better(smaller, &mut case);
                }
            }
        }
        if !helped {
            return (case, told);
        }
    }
}
