// new: a default
fn size_hint(&self) -> (usize, Option<usize>) {
    (0, None)
}
