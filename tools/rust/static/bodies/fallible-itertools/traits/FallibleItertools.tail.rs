// changed: no allocator is passed; nothing is refused
// proved: 86efa4db
fn tail(mut self, n: usize) -> Result<VecDeque<Self::Item>, Self::Error>
{
    let mut kept = VecDeque::new();
    whole(self.drive(&mut kept, &tail::TailTurn { n }))?;
    Ok(kept)
}
