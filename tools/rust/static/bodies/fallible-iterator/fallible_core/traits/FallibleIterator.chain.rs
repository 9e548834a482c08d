// changed: the result's type names the argument
// proved: 60d672e4
fn chain<I>(self, it: I) -> Chain<Self, I>
where
    I: IntoFallibleIterator<Item = Self::Item, Error = Self::Error>,
{
    Chain {
        first: self,
        second: it,
        still_drawn: StillDrawn::Both,
    }
}
