//! What a run costs: an allocator that counts, and the counts of what items, sources and closures are asked.
use std::alloc::{GlobalAlloc, Layout, System};
use std::sync::atomic::{AtomicBool, AtomicI64, Ordering::Relaxed};

/// How many figures a run has.
pub const FIGURES: usize = 8;

/// What each figure counts.
pub const HEADS: [&str; FIGURES] = [
    "Instructions",
    "Draws",
    "Closures",
    "Compared",
    "Clones",
    "Allocations",
    "Bytes",
    "Most bytes held",
];

/// The places of figures.
pub const INSTRUCTIONS: usize = 0;
pub const DRAWS: usize = 1;
pub const CLOSURES: usize = 2;
pub const COMPARED: usize = 3;
pub const CLONES: usize = 4;
const ALLOCATIONS: usize = 5;
pub const BYTES: usize = 6;
pub const HELD: usize = 7;

static COUNTS: [AtomicI64; FIGURES] = [const { AtomicI64::new(0) }; FIGURES];
static LIVE: AtomicI64 = AtomicI64::new(0);
static SOURCE_MAKES: AtomicBool = AtomicBool::new(false);

pub fn count(figure: usize) {
    COUNTS[figure].fetch_add(1, Relaxed);
}

/// Makes an item of a source. What it allocates is held, and no allocation of the call.
pub fn made_by_source<T>(make: impl FnOnce() -> T) -> T {
    SOURCE_MAKES.store(true, Relaxed);
    let made = make();
    SOURCE_MAKES.store(false, Relaxed);
    made
}

/// The figures of a run.
pub fn figures_of(run: impl FnOnce()) -> [i64; FIGURES] {
    let mut figures = [0; FIGURES];
    // (what is asked of callgrind allocates too)
    let instructions = crate::callgrind::instructions_of(|| {
        for count in &COUNTS {
            count.store(0, Relaxed);
        }
        LIVE.store(0, Relaxed);
        run();
        figures = std::array::from_fn(|figure| COUNTS[figure].load(Relaxed));
    });
    figures[INSTRUCTIONS] = instructions;
    figures
}

struct Counting;

fn asked(bytes: usize, more: i64) {
    if !SOURCE_MAKES.load(Relaxed) {
        COUNTS[ALLOCATIONS].fetch_add(1, Relaxed);
        COUNTS[BYTES].fetch_add(bytes as i64, Relaxed);
    }
    let live = LIVE.fetch_add(more, Relaxed) + more;
    COUNTS[HELD].fetch_max(live, Relaxed);
}

// SAFETY: each call goes to the system's allocator, as it came.
unsafe impl GlobalAlloc for Counting {
    unsafe fn alloc(&self, layout: Layout) -> *mut u8 {
        asked(layout.size(), layout.size() as i64);
        System.alloc(layout)
    }

    unsafe fn dealloc(&self, place: *mut u8, layout: Layout) {
        LIVE.fetch_sub(layout.size() as i64, Relaxed);
        System.dealloc(place, layout)
    }

    unsafe fn realloc(&self, place: *mut u8, layout: Layout, size: usize) -> *mut u8 {
        asked(size, size as i64 - layout.size() as i64);
        System.realloc(place, layout, size)
    }
}

#[global_allocator]
static COUNTING: Counting = Counting;
