// changed: the upper bound of the source, as the original's
// proved: a1973b65
fn size_hint(&self) -> (usize, Option<usize>) {
    (0, self.it.size_hint().1)
}
