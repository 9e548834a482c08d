// changed: a clone is never refused
// proved: 2442c53f
fn next(&mut self) -> Result<Option<I::Item>, I::Error> {
    match self.it.next() {
        Ok(Some(x)) => Ok(Some(x)),
        Ok(None) => {
            self.it = self.kept.clone();
            self.it.next()
        }
        Err(e) => Err(e),
    }
}
