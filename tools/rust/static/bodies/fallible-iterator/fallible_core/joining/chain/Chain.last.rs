// new: by the source's own, as the original's
// in: FallibleIterator for Chain
fn last(self) -> Result<Option<Self::Item>, Self::Error> {
    match self.still_drawn {
        StillDrawn::Both => match (self.first.last()?, self.second.last()?) {
            (_, Some(x)) => Ok(Some(x)),
            (before, None) => Ok(before),
        },
        StillDrawn::FirstAlone => self.first.last(),
        StillDrawn::SecondAlone => self.second.last(),
    }
}
