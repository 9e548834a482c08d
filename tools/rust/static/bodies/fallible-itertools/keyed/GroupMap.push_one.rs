// changed: no allocator is passed, and none refuses
// proved: 70771591
fn push_one(&mut self, item: (K, V)) -> Result<(), AllocError> {
    let (key, value) = item;
    if let Some(values) = self.groups.get_mut(&key) {
        pushed(values, value);
        return Ok(());
    }
    let mut values = Vec::new();
    pushed(&mut values, value);
    self.groups.insert(key, values);
    Ok(())
}
