// changed: an interrupted read is tried again, and the reader's error is kept
// proved: 49c03700
fn byte_of<R: ReadBytes>(reader: &mut R) -> Result<Option<u8>, ReadFailed> {
    let mut byte = [0u8; 1];
    match read_retried(reader, &mut byte) {
        Ok(0) => Ok(None),
        Ok(_) => Ok(Some(byte[0])),
        Err(error) => Err(ReadFailed::from(error)),
    }
}
