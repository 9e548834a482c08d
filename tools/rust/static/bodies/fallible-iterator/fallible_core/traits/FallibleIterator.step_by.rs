// changed: `assert!(step != 0)` for the precondition
// proved: 6cddd99b
fn step_by(self, step: usize) -> StepBy<Self> {
    assert!(step != 0);
    StepBy {
        it: self,
        between: step - 1,
        to_skip: 0,
    }
}
