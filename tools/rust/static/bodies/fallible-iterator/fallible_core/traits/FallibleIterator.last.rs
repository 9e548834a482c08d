// changed: the fold of the proved `drive_to`, for this goal
// proved: 9461a891
// of: drive_to ebfa6894
fn last(mut self) -> Result<Option<Self::Item>, Self::Error> {
    let mut last = None;
    match self.drive(&mut last, &LastTurn) {
        Ok(None) => Ok(last),
        Ok(Some(never)) => match never {},
        Err(e) => Err(e),
    }
}
