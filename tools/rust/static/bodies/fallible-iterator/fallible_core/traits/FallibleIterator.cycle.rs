// changed: returns no `Result`
// proved: 2d05e130
fn cycle(self) -> Cycle<Self>
where
    Self: Clone,
{
    Cycle {
        it: self.clone(),
        kept: self,
    }
}
