// changed: std's writer into a `Vec` ends the program where there is no memory for the line
// proved: 77591608
fn print_line(
    mut report: Vec<u8>,
    name: u64,
    rows: &[Row],
) -> Result<Vec<u8>, RunFault<GroupsFault>> {
    match write_line(&mut program_io::memory::VecWriter(&mut report), name, rows) {
        Ok(()) => Ok(report),
        // No memory: writing to a vector fails only if an allocation does.
        Err(_) => Err(RunFault::Memory),
    }
}
