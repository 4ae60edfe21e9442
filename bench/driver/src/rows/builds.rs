//! A sheet run twice into one store. rowan's cache and trees are dropped off the clock; the library's store is emptied by its counts.

use crate::{
    measure::{cpu_time, Bench},
    store::Store,
    trees::Sheet,
};
use rowan::NodeCache;
use std::hint::black_box;

/// Builds in one sample.
const BUILDS: usize = 4;

pub fn builds(tree: &'static str, sheet: &Sheet, bench: &mut Bench) {
    if !bench.wants("build") && !bench.wants("rebuild") {
        return;
    }
    let mut store = Store::new();
    let mut samples = [Vec::new(), Vec::new()];
    for _ in 0..bench.samples() {
        let mut rowan = [0; 2];
        let mut ours = [0; 2];
        for _ in 0..BUILDS {
            by_rowan(sheet, &mut rowan);
            by_us(sheet, &mut store, &mut ours);
        }
        for at in 0..2 {
            samples[at].push((rowan[at] as f64 / BUILDS as f64, ours[at] as f64 / BUILDS as f64));
        }
    }
    for (key, samples) in ["build", "rebuild"].into_iter().zip(&samples) {
        if bench.wants(key) {
            bench.add(tree, key, sheet.count, samples);
        }
    }
}

fn by_rowan(sheet: &Sheet, times: &mut [u64; 2]) {
    let mut cache = NodeCache::default();
    let mut trees = Vec::with_capacity(2);
    for time in times {
        let start = cpu_time();
        trees.push(black_box(sheet.build(&mut cache)));
        *time += cpu_time() - start;
    }
}

fn by_us(sheet: &Sheet, store: &mut Store, times: &mut [u64; 2]) {
    store.used = [0; 8];
    for time in times {
        let start = cpu_time();
        black_box(store.run(sheet));
        *time += cpu_time() - start;
    }
}
