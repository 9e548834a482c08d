// changed: a clone is never refused
// proved: 6efa44b3
fn pair<X: Clone, E>(
    holds: &mut Option<X>,
    y: X,
    x: X,
) -> Outcome<(X, X), E>
{
    let copy = x.clone();
    *holds = Some(x);
    Outcome::Kept((y, copy))
}
