// changed: one more parameter of a call, for items of two types
// proved: 8cefd6e1
pub fn compare<L, R, K>(left: L, right: R) -> Result<Option<Ordering>, L::Error>
where
    L: FallibleIterator,
    R: FallibleIterator<Error = L::Error>,
    K: Comparison<L::Item, R::Item>,
{
    let mut both = Zip { left, right };
    loop {
        let x = match both.left.next() {
            Ok(x) => x,
            Err(e) => return Err(e),
        };
        let y = match both.right.next() {
            Ok(y) => y,
            Err(e) => return Err(e),
        };
        match decide::<L::Item, R::Item, K>(x, y) {
            Some(order) => return Ok(order),
            None => {}
        }
    }
}
