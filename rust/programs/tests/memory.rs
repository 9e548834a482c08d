//! Where memory is refused a program says so, with status 3, and isn't ended by a signal.
#![cfg(target_os = "linux")]
use std::io::Write;
use std::process::{Command, Stdio};

/// The status under a limit of so many KiB of addresses, and what is told.
fn limited(program: &str, words: &[&str], input: &[u8], limit: usize) -> (Option<i32>, String) {
    let script = format!("ulimit -v {limit}; exec \"$0\" \"$@\"");
    let mut child = Command::new("sh")
        .args(["-c", &script, program])
        .args(words)
        .stdin(Stdio::piped())
        .stdout(Stdio::null())
        .stderr(Stdio::piped())
        .spawn()
        .unwrap();
    // A program that has no memory reads no more.
    let _ = child.stdin.take().unwrap().write_all(input);
    let done = child.wait_with_output().unwrap();
    (done.status.code(), String::from_utf8(done.stderr).unwrap())
}

/// What a server sends of one cell of these bytes.
fn row_of(cell: &[u8]) -> Vec<u8> {
    let size = |more: usize| u32::try_from(cell.len() + more).unwrap().to_be_bytes();
    [
        b"D",
        &size(10)[..],
        b"\0\x01",
        &size(0)[..],
        cell,
        b"Z\0\0\0\x05I",
    ]
    .concat()
}

#[test]
fn where_memory_is_refused_a_program_tells_it() {
    const SIZE: usize = 12_000_000;
    let rows: Vec<u8> = (0..SIZE / 8)
        .flat_map(|n| format!("{n},1\n").into_bytes())
        .collect();
    for (program, words, input) in [
        (env!("CARGO_BIN_EXE_sum_groups"), &[][..], vec![0; SIZE]),
        (env!("CARGO_BIN_EXE_sum_groups"), &[], rows),
        (
            env!("CARGO_BIN_EXE_pg_rows"),
            &[],
            row_of(&vec![b'x'; SIZE]),
        ),
        (
            env!("CARGO_BIN_EXE_pg_rows"),
            &["--csv"],
            row_of(&vec![b'"'; SIZE]),
        ),
        (env!("CARGO_BIN_EXE_json_tokens"), &[], vec![b'['; 4 * SIZE]),
    ] {
        let mut refused = 0;
        for limit in [12_000, 20_000, 28_000, 36_000] {
            let (status, told) = limited(program, words, &input, limit);
            let name = format!("{program} {words:?}, {limit} KiB: {told}");
            assert!(status.is_some_and(|status| status <= 5), "{name}");
            if status == Some(3) {
                assert_eq!(told, "no memory\n", "{name}");
                refused += 1;
            }
        }
        assert!(refused > 0, "{program} {words:?}");
    }
}
