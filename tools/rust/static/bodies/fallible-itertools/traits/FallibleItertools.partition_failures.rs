// changed: the fold of the proved `collect`, into any `Default + Extend`
// proved: c0edb4e7
fn partition_failures<C, D>(self) -> (C, D)
where
    C: Default + Extend<Self::Item>,
    D: Default + Extend<Self::Error>,
{
    let mut both = (Extended(C::default()), Extended(D::default()));
    // Its failure has no value.
    let _ = whole((Parted { it: self }).drive(&mut both, &CollectTurn));
    (both.0.0, both.1.0)
}
