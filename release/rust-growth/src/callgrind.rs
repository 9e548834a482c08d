//! The instructions of a run, where valgrind's callgrind runs this program: it is asked to write what it counted, and that is read.
use std::fs::File;
use std::io::{Read, Seek, SeekFrom};
use std::sync::atomic::{AtomicU64, Ordering::Relaxed};

// What callgrind is asked for, as its header `callgrind.h` has it.
const DUMP: u64 = 0x4354_0000;
const ZERO: u64 = 0x4354_0001;

static DUMPS: AtomicU64 = AtomicU64::new(0);

/// Asks valgrind for something. Where it doesn't run this, nothing is done.
#[cfg(target_arch = "x86_64")]
fn ask(what: u64) {
    let asked = [what, 0, 0, 0, 0, 0];
    // SAFETY: these rotate a register by 128 bits in all, and exchange one with itself: valgrind.h has them.
    unsafe {
        std::arch::asm!(
            "rol rdi, 3",
            "rol rdi, 13",
            "rol rdi, 61",
            "rol rdi, 51",
            "xchg rbx, rbx",
            in("rax") asked.as_ptr(),
            inout("rdx") 0_u64 => _,
        );
    }
}

#[cfg(not(target_arch = "x86_64"))]
fn ask(_: u64) {}

/// The instructions that a run takes, or none if callgrind's file isn't named by the environment.
pub fn instructions_of(run: impl FnOnce()) -> i64 {
    let Ok(file) = std::env::var("CALLGRIND_FILE") else {
        run();
        return 0;
    };
    ask(ZERO);
    run();
    ask(DUMP);
    let name = format!("{file}.{}", DUMPS.fetch_add(1, Relaxed) + 1);
    let total = total_of(&name).unwrap_or_else(|why| panic!("{name}: {why}"));
    std::fs::remove_file(name).expect("a file that was read");
    total
}

/// The number in the last line of a file of callgrind.
fn total_of(name: &str) -> std::io::Result<i64> {
    let mut file = File::open(name)?;
    file.seek(SeekFrom::End(-40))?;
    let mut end = String::new();
    file.read_to_string(&mut end)?;
    let total = end.trim_end().rsplit(' ').next().and_then(|number| number.parse().ok());
    total.ok_or_else(|| std::io::ErrorKind::InvalidData.into())
}
