// changed: std's `read_until` ends the program where there is no memory for the line
// proved: 57874739
fn read_first_line(&mut self) -> io::Result<Vec<u8>> {
    let mut line = Vec::new();
    loop {
        let held = match self.fill_buf() {
            Ok(held) => held,
            Err(error) if error.kind() == ErrorKind::Interrupted => continue,
            Err(error) => return Err(error),
        };
        let end = held.iter().position(|byte| *byte == b'\n');
        let count = end.map_or(held.len(), |place| place + 1);
        line.try_extend_from_slice(&held[..count])?;
        self.consume(count);
        if end.is_some() || count == 0 {
            return Ok(line);
        }
    }
}
