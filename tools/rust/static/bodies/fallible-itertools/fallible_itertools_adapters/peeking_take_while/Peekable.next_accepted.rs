// changed: by `peek` and `next`, with no second draw at an end
// proved: 5145e77b
fn next_accepted<F>(&mut self, accept: &mut F) -> Result<Option<I::Item>, I::Error>
where
    F: FnMut(&I::Item) -> Result<bool, I::Error>,
{
    let accepted = match self.peek() {
        Ok(Some(item)) => accept(item),
        // The original holds no end: a `next` would draw again.
        Ok(None) => Ok(Peekable::<I>::HOLDS_ENDS),
        Err(e) => return Err(e),
    };
    match accepted {
        Ok(true) => self.next(),
        Ok(false) => Ok(None),
        Err(e) => match self.next() {
            Ok(_) => Err(e),
            Err(_) => unreachable!(),
        },
    }
}
