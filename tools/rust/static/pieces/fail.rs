/// What a test fails with: it panics where it is made.
pub struct Fail;

impl Fail {
    pub fn new(what: impl std::fmt::Display) -> Fail {
        panic!("{what}")
    }
}

impl<E: std::fmt::Debug> From<E> for Fail {
    fn from(e: E) -> Fail {
        panic!("{e:?}")
    }
}
