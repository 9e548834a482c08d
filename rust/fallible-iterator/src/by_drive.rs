//! What a type gets that writes a hidden fold: the calls of the original that go by it.

/// In the `impl` of a type that writes the hidden fold of that name.
#[doc(hidden)]
#[macro_export]
macro_rules! by_drive {
    (drive) => {
        #[inline(always)]
        fn try_fold<Value, Failed, Step>(&mut self, init: Value, f: Step) -> Result<Value, Failed>
        where
            Failed: From<Self::Error>,
            Step: FnMut(Value, Self::Item) -> Result<Value, Failed>,
        {
            self.drive_try_fold(init, f)
        }
    };
    (drive_back) => {
        #[inline(always)]
        fn try_rfold<Value, Failed, Step>(&mut self, init: Value, f: Step) -> Result<Value, Failed>
        where
            Failed: From<Self::Error>,
            Step: FnMut(Value, Self::Item) -> Result<Value, Failed>,
        {
            self.drive_try_rfold(init, f)
        }
    };
}
