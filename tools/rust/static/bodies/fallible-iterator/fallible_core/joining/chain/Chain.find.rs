// new: by the sides' own, as the original's
// in: FallibleIterator for Chain
// of: drive 3b4d4951
fn find<F>(&mut self, f: F) -> Result<Option<T::Item>, T::Error>
where
    F: FnMut(&T::Item) -> Result<bool, T::Error>,
{
    let mut f = f;
    let Chain {
        first,
        second,
        still_drawn,
    } = self;
    match still_drawn {
        StillDrawn::SecondAlone => second.find(f),
        _ => match first.find(&mut f) {
            Ok(Some(x)) => Ok(Some(x)),
            Ok(None) => match still_drawn {
                StillDrawn::FirstAlone => Ok(None),
                _ => {
                    *still_drawn = StillDrawn::SecondAlone;
                    second.find(f)
                }
            },
            Err(e) => Err(e),
        },
    }
}
