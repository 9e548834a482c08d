// changed: the fold of the proved `drive_to`, for this goal
// proved: 11b29ed8
// of: drive_to ebfa6894
fn count(mut self) -> Result<usize, Self::Error> {
    let mut number = 0;
    match self.drive(&mut number, &CountTurn) {
        Ok(None) => Ok(number),
        Ok(Some(never)) => match never {},
        Err(e) => Err(e),
    }
}
