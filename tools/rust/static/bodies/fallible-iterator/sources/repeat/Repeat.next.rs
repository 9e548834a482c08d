// changed: a clone is never refused
// proved: bf772e84
fn next(&mut self) -> Result<Option<T>, E> {
    Ok(Some(self.value.clone()))
}
