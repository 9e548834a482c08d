// changed: no allocator is passed; nothing is refused
// proved: 608d01e0
fn join(mut self, separator: &str) -> Result<String, Self::Error>
where
    Self::Item: Display,
{
    let mut state = (false, String::new());
    whole(self.drive(&mut state, &JoinTurn { separator }))?;
    Ok(state.1)
}
