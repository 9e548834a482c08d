// new: by the source's own, as the original's
// in: FallibleIterator for Chain
fn count(self) -> Result<usize, Self::Error> {
    match self.still_drawn {
        StillDrawn::Both => Ok(self.first.count()? + self.second.count()?),
        StillDrawn::FirstAlone => self.first.count(),
        StillDrawn::SecondAlone => self.second.count(),
    }
}
