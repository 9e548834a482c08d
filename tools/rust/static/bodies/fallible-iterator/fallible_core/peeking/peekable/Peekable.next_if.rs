// changed: by `peek` and `next`, so that the item stays where the closure panics
// proved: 13a17aab
pub fn next_if<F: Fn(&I::Item) -> bool>(&mut self, f: F) -> Result<Option<I::Item>, I::Error> {
    match self.peek() {
        Ok(Some(x)) if f(x) => self.next(),
        Ok(_) => Ok(None),
        Err(e) => Err(e),
    }
}
