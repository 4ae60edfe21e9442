//! Bytes that both sides hold for a tree, as rows of a table. rowan's are those that it asked the allocator for and has not given back;
//! what the allocator adds to each is not counted. A program of its own: counting would cost rowan time.

use driver::{case, report::tables::thousands, store::Store, trees::Sheet};
use rowan::NodeCache;
use std::{
    alloc::{GlobalAlloc, Layout, System},
    sync::atomic::{AtomicUsize, Ordering::Relaxed},
};

struct Counting;

static HELD: AtomicUsize = AtomicUsize::new(0);

unsafe impl GlobalAlloc for Counting {
    unsafe fn alloc(&self, layout: Layout) -> *mut u8 {
        HELD.fetch_add(layout.size(), Relaxed);
        System.alloc(layout)
    }

    unsafe fn dealloc(&self, address: *mut u8, layout: Layout) {
        HELD.fetch_sub(layout.size(), Relaxed);
        System.dealloc(address, layout)
    }
}

#[global_allocator]
static ALLOCATOR: Counting = Counting;

fn main() {
    println!("| tree | elements | records | rowan, tree and cache | an element | rowan, tree alone | an element | ours | an element |");
    println!("|---|---:|---:|---:|---:|---:|---:|---:|---:|");
    for (name, sheet) in case::sheets() {
        row(name, &sheet);
    }
}

fn row(name: &str, sheet: &Sheet) {
    let mut store = Store::new();
    let root = store.run(sheet);
    let elements = store.element(root)[2];
    let (with_cache, alone) = by_rowan(sheet);
    let each = |bytes: usize| format!("{} | {:.1}", thousands(bytes as u64), bytes as f64 / elements as f64);
    println!(
        "| {name} | {} | {} | {} | {} | {} |",
        thousands(elements as u64),
        thousands(store.used[0] as u64),
        each(with_cache),
        each(alone),
        each(store.bytes()),
    );
}

/// While the cache lives, and after it.
fn by_rowan(sheet: &Sheet) -> (usize, usize) {
    let before = HELD.load(Relaxed);
    let mut cache = NodeCache::default();
    let tree = sheet.build(&mut cache);
    let with_cache = HELD.load(Relaxed) - before;
    drop(cache);
    let alone = HELD.load(Relaxed) - before;
    drop(tree);
    (with_cache, alone)
}
