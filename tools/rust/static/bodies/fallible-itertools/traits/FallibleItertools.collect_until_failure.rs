// changed: the proved fold, into any `Default + Extend`
// proved: f1766456
fn collect_until_failure<C>(&mut self) -> (C, Option<Self::Error>)
where
    C: Default + Extend<Self::Item>,
{
    let mut made = Extended(C::default());
    let failure = whole(self.drive(&mut made, &CollectTurn)).err();
    (made.0, failure)
}
