//! Each program over good input and over a fault: its status, its output and what it tells. `tools/word_runs` compares more.
use std::io::Write;
use std::process::{Command, Stdio};

/// The status, the output and what is told.
fn run(program: &str, words: &[&str], input: &[u8]) -> (Option<i32>, String, String) {
    let piped = || Stdio::piped();
    let mut command = Command::new(program);
    let mut child = command
        .args(words)
        .stdin(piped())
        .stdout(piped())
        .stderr(piped())
        .spawn()
        .unwrap();
    // A program that reads no input may be gone by then.
    let _ = child.stdin.take().unwrap().write_all(input);
    let done = child.wait_with_output().unwrap();
    let text = |bytes| String::from_utf8(bytes).unwrap();
    (done.status.code(), text(done.stdout), text(done.stderr))
}

fn found(status: i32, output: &str, told: &str) -> (Option<i32>, String, String) {
    (Some(status), output.into(), told.into())
}

#[test]
fn each_program_prints_or_tells_why() {
    let rows = b"D\0\0\0\x0b\0\x01\0\0\0\x011D\0\0\0\x0a\0\x01\xff\xff\xff\xffZ\0\0\0\x05I";
    for (program, input, output, bad, told) in [
        (
            env!("CARGO_BIN_EXE_count_rows"),
            &b"100\n200\n400\n"[..],
            "2\n",
            &b"1\nx\n"[..],
            "row 2: not a number\n",
        ),
        (
            env!("CARGO_BIN_EXE_sum_groups"),
            b"7,1\n7,2\n",
            "groups\n7: 2 rows, 3\nbatches\n7: 2 rows, 3\n",
            b"7\n",
            "row 1: not a key and an amount\n",
        ),
        (
            env!("CARGO_BIN_EXE_sum_table"),
            b"\x01\0\0\0\x02\0\0\0",
            "records 1\nlow 1\nhigh 2\n",
            b"\x03\0\0\0\x02\0\0\0",
            "record 1: the first number is above the second\n",
        ),
        (
            env!("CARGO_BIN_EXE_json_tokens"),
            b" [1, {}]\n",
            "[1,{}]\n",
            b"[1,\n]",
            "line 2, column 1: unexpected ']', expected a value\n",
        ),
        (
            env!("CARGO_BIN_EXE_pg_rows"),
            rows,
            "1\n\n",
            b"x\0\0\0\x04",
            "byte 0: a message has the unexpected tag 120\n",
        ),
    ] {
        assert_eq!(run(program, &[], input), found(0, output, ""));
        let (status, printed, line) = run(program, &[], bad);
        assert_eq!((printed.as_str(), line.as_str()), ("", told));
        assert!(status == Some(1) || status == Some(5));
    }
    let elf_tables = env!("CARGO_BIN_EXE_elf_tables");
    assert_eq!(
        run(elf_tables, &[], b"no"),
        found(5, "", "byte 0: no ELF file\n")
    );
}

#[test]
fn words_are_taken_or_refused() {
    let pg_rows = env!("CARGO_BIN_EXE_pg_rows");
    let (status, usage, _) = run(pg_rows, &["--help"], b"");
    assert_eq!(
        (status, usage.lines().next()),
        (Some(0), Some("usage: pg_rows [--csv] [--null TEXT] [FILE]"))
    );
    assert_eq!(
        run(pg_rows, &["-x"], b""),
        found(2, "", &format!("-x: unexpected\n{usage}"))
    );
    assert_eq!(
        run(pg_rows, &["none"], b""),
        found(2, "", "cannot open none: no such file\n")
    );
}
