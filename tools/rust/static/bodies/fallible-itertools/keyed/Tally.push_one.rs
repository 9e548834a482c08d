// changed: `insert` is never refused; a count stays at `usize::MAX`
// proved: 47c0820c
fn push_one(&mut self, item: K) -> Result<(), AllocError> {
    if let Some(count) = self.counts.get_mut(&item) {
        *count = count.saturating_add(1);
        return Ok(());
    }
    self.counts.insert(item, 1);
    Ok(())
}
