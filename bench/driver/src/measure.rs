//! Times of both sides, taken in turns.

use rowan::{GreenNode, NodeCache};
use std::hint::black_box;

/// What rowan made and a timed run must not be charged the dropping of.
#[derive(Default)]
pub struct Kept {
    pub nodes: Vec<GreenNode>,
    pub caches: Vec<NodeCache>,
}

impl Kept {
    fn is_empty(&self) -> bool {
        self.nodes.is_empty() && self.caches.is_empty()
    }

    fn clear(&mut self) {
        self.nodes.clear();
        self.caches.clear();
    }
}

/// A row of the table on one tree: nanoseconds for a unit, and the median of the ratios of neighbouring samples.
pub struct Row {
    pub tree: &'static str,
    pub key: &'static str,
    pub rowan: f64,
    pub ours: f64,
    pub ratio: f64,
}

pub struct Bench {
    wanted: Vec<String>,
    samples: usize,
    pub rows: Vec<Row>,
}

/// A sample lasts at least so long, in nanoseconds.
const SAMPLE: u64 = 1_000_000;

impl Bench {
    /// All rows where none is wanted by name.
    pub fn new(wanted: &str, samples: usize) -> Bench {
        let wanted = wanted.split(',').filter(|it| !it.is_empty());
        Bench { wanted: wanted.map(str::to_string).collect(), samples, rows: Vec::new() }
    }

    pub fn wants(&self, key: &str) -> bool {
        self.wanted.is_empty() || self.wanted.iter().any(|it| it == key)
    }

    /// Both sides must give one sum: the row is a test too.
    pub fn time(
        &mut self,
        tree: &'static str,
        key: &'static str,
        units: usize,
        mut rowan: impl FnMut(&mut Kept) -> u64,
        mut ours: impl FnMut() -> u64,
    ) {
        let mut kept = Kept::default();
        assert_eq!(rowan(&mut kept), ours(), "{tree}: {key}");
        let is_kept = !kept.is_empty();
        kept.clear();
        let mut ours = |_: &mut Kept| ours();
        let times = (runs(&mut rowan, &mut kept), runs(&mut ours, &mut kept));
        let mut samples = Vec::with_capacity(self.samples);
        for _ in 0..self.samples {
            let rowan = match is_kept {
                true => apart(&mut rowan, times.0, &mut kept),
                false => together(&mut rowan, times.0, &mut kept),
            };
            samples.push((rowan, together(&mut ours, times.1, &mut kept)));
        }
        self.add(tree, key, units, &samples);
    }

    /// Takes samples of both sides, rowan's first.
    pub fn add(&mut self, tree: &'static str, key: &'static str, units: usize, samples: &[(f64, f64)]) {
        let units = units as f64;
        let row = Row {
            tree,
            key,
            rowan: median(samples.iter().map(|it| it.0)) / units,
            ours: median(samples.iter().map(|it| it.1)) / units,
            ratio: median(samples.iter().map(|it| it.0 / it.1)),
        };
        println!("{tree:8} {key:14} {units:6} {:10.1} {:10.1} {:8.2}", row.rowan, row.ours, row.ratio);
        self.rows.push(row);
    }

    pub fn samples(&self) -> usize {
        self.samples
    }
}

/// How many runs make a sample.
fn runs(side: &mut impl FnMut(&mut Kept) -> u64, kept: &mut Kept) -> usize {
    let time = apart(side, 1, kept).max(1.0);
    (SAMPLE as f64 / time).clamp(1.0, 100_000.0) as usize
}

/// Nanoseconds a run, all runs under one clock.
fn together(side: &mut impl FnMut(&mut Kept) -> u64, runs: usize, kept: &mut Kept) -> f64 {
    let start = cpu_time();
    for _ in 0..runs {
        black_box(black_box(&mut *side)(kept));
    }
    (cpu_time() - start) as f64 / runs as f64
}

/// The same, what is kept being dropped off the clock.
fn apart(side: &mut impl FnMut(&mut Kept) -> u64, runs: usize, kept: &mut Kept) -> f64 {
    let mut time = 0;
    for _ in 0..runs {
        let start = cpu_time();
        black_box(black_box(&mut *side)(kept));
        time += cpu_time() - start;
        kept.clear();
    }
    time as f64 / runs as f64
}

pub fn median(values: impl Iterator<Item = f64>) -> f64 {
    let mut values: Vec<f64> = values.collect();
    values.sort_by(f64::total_cmp);
    values[values.len() / 2]
}

/// This thread's time on a processor: other work on the machine is not counted.
pub fn cpu_time() -> u64 {
    #[repr(C)]
    struct Time {
        seconds: i64,
        nanoseconds: i64,
    }
    const THREAD: i32 = 3;
    extern "C" {
        fn clock_gettime(clock: i32, time: &mut Time) -> i32;
    }
    let mut time = Time { seconds: 0, nanoseconds: 0 };
    assert_eq!(unsafe { clock_gettime(THREAD, &mut time) }, 0);
    time.seconds as u64 * 1_000_000_000 + time.nanoseconds as u64
}
