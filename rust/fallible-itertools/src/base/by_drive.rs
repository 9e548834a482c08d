//! What a type gets that has a fold by turns of its own: `try_fold` or `try_rfold`, which goes by it.

/// What `try_fold` returns, from what its fold by turns returned and left.
#[inline(always)]
pub fn folded<B, E: From<D>, D>(answer: Result<Option<E>, D>, value: Option<B>) -> Result<B, E> {
    match answer {
        Ok(None) => match value {
            Some(value) => Ok(value),
            None => unreachable!(),
        },
        Ok(Some(e)) => Err(e),
        Err(e) => Err(E::from(e)),
    }
}

/// In the `impl` of the trait for a type that has `by_turns` or `back_by_turns` of its own.
macro_rules! by_drive {
    (drive) => {
        crate::base::by_drive!(@ try_fold, by_turns);
    };
    (drive_back) => {
        crate::base::by_drive!(@ try_rfold, back_by_turns);
    };
    (@ $call:ident, $fold:ident) => {
        #[inline(always)]
        fn $call<Value, Failed, Step>(&mut self, init: Value, f: Step) -> Result<Value, Failed>
        where
            Failed: From<Self::Error>,
            Step: FnMut(Value, Self::Item) -> Result<Value, Failed>,
        {
            let mut state = (Some(init), f);
            let answer = self.$fold(&mut state, &crate::base::fallible_contract::folds::TryFoldTurn);
            crate::base::by_drive::folded(answer, state.0)
        }
    };
}

pub(crate) use by_drive;
