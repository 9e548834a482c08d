//! Ctrl-C asks the server to cancel the query.
use crate::Socket;
use crate::place::Place;
use fallible_pg::{CancelKey, cancel_message};
use std::io::{Read, Write};
use std::os::unix::io::AsRawFd;
use std::os::unix::net::UnixStream;
use std::sync::atomic::{AtomicI32, Ordering};
use std::thread;

static WAKES: AtomicI32 = AtomicI32::new(-1);

const SIGINT: i32 = 2;

extern "C" {
    fn signal(number: i32, handler: extern "C" fn(i32)) -> usize;
    fn write(file: i32, bytes: *const u8, count: usize) -> isize;
}

extern "C" fn wake(_: i32) {
    // The one call that a handler may make: it writes a byte.
    unsafe { write(WAKES.load(Ordering::Relaxed), b"c".as_ptr(), 1) };
}

/// From now on each Ctrl-C sends the server the session's key, over a connection of its own.
pub fn cancels(place: Place, key: CancelKey) -> std::io::Result<()> {
    let (mut asleep, awake) = UnixStream::pair()?;
    WAKES.store(awake.as_raw_fd(), Ordering::Relaxed);
    std::mem::forget(awake);
    unsafe { signal(SIGINT, wake) };
    thread::spawn(move || {
        let mut byte = [0];
        while asleep.read_exact(&mut byte).is_ok() {
            if let (Ok(mut socket), Ok(message)) = (Socket::open(&place), cancel_message(key)) {
                let _ = socket.write_all(&message);
            }
        }
    });
    Ok(())
}
