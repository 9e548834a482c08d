//! Clones and debug texts of what is written by hand, and folds of a std iterator.
use fallible_iterator::{DoubleEndedFallibleIterator, FallibleIterator, IteratorExt, convert};
use std::convert::Infallible;

#[test]
fn flat_map_has_a_clone_and_a_debug_text() {
    let pair = |x: u32| Ok(convert([Ok(x), Ok(x + 1)].into_iter()));
    let mut it = convert([Ok::<u32, ()>(1), Ok(5)].into_iter()).flat_map(pair);
    assert_eq!(it.next(), Ok(Some(1)));
    let text = format!("{it:?}");
    assert!(
        text.starts_with("FlatMap { it: ") && text.contains("in_hand: Some("),
        "{text}"
    );
    let mut clone = it.clone();
    assert_eq!(clone.next(), Ok(Some(2)));
    assert_eq!(clone.next(), Ok(Some(5)));
    assert_eq!(it.next(), Ok(Some(2)));
}

// Why a fold stopped.
#[derive(Debug, PartialEq)]
struct Stop(u32);

impl From<Infallible> for Stop {
    fn from(never: Infallible) -> Stop {
        match never {}
    }
}

#[test]
fn into_fallible_goes_on_after_a_fold_that_stops_at_either_end() {
    let mut it = (1..10u32).into_fallible();
    assert_eq!(
        it.try_fold(0, |sum, x| if sum + x > 3 {
            Err(Stop(x))
        } else {
            Ok(sum + x)
        }),
        Err(Stop(3))
    );
    assert_eq!(it.next(), Ok(Some(4)));
    assert_eq!(
        it.try_rfold(0, |sum, x| if sum + x > 17 {
            Err(Stop(x))
        } else {
            Ok(sum + x)
        }),
        Err(Stop(7))
    );
    assert_eq!(it.next_back(), Ok(Some(6)));
    assert_eq!(it.next(), Ok(Some(5)));
    assert_eq!(it.next(), Ok(None));
}
