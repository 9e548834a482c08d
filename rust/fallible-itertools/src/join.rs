//! A text of the items that can be shown.

use crate::base::AllocError;
use crate::base::Turn;
use alloc::string::String;
use core::fmt::{Display, Write};
use core::ops::ControlFlow;

// Appends the separator, if an item stands before it, and then the item.
fn append<T: Display>(
    text: &mut String,
    begun: bool,
    separator: &str,
    item: T,
) -> Result<(), AllocError> {
    if begun {
        text.push_str(separator);
    }
    let written = write!(text, "{item}");
    written.expect("a Display implementation returned an error");
    Ok(())
}

/// The turn of `join`, whose state is the text so far, and whether an item was written.
pub struct JoinTurn<'a> {
    /// what stands between each two items
    pub separator: &'a str,
}

impl<'a, A: Display> Turn<(bool, String), A, AllocError> for JoinTurn<'a> {
    /// Appends the item to the others.
    #[inline(always)]
    fn turn(&self, state: &mut (bool, String), item: A) -> ControlFlow<AllocError, ()> {
        match append(&mut state.1, state.0, self.separator, item) {
            Ok(()) => {
                state.0 = true;
                ControlFlow::Continue(())
            }
            Err(refused) => ControlFlow::Break(refused),
        }
    }
}
