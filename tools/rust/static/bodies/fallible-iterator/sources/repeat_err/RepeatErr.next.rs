// changed: a clone is never refused
// proved: e02dc4d4
fn next(&mut self) -> Result<Option<T>, E> {
    Err(self.error.clone())
}
