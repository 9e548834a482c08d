// new: the loop over `next`, which a caller's type may replace
fn try_rfold<B, E, F>(&mut self, init: B, f: F) -> Result<B, E>
where
    E: From<Self::Error>,
    F: FnMut(B, Self::Item) -> Result<B, E>,
{
    let mut f = f;
    let mut value = init;
    while let Some(x) = self.next_back()? {
        value = f(value, x)?;
    }
    Ok(value)
}
