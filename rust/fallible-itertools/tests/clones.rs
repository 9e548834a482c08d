//! How often a value is cloned, and the clones and debug texts of what is written by hand.
use fallible_iterator::{FallibleIterator, convert};
use fallible_itertools::{FallibleItertools, kmerge, kmerge_by};
use std::cell::Cell;
use std::rc::Rc;

// What was folded, and how often any of these was cloned.
struct Text(String, Rc<Cell<u32>>);

impl Clone for Text {
    fn clone(&self) -> Text {
        self.1.set(self.1.get() + 1);
        Text(self.0.clone(), Rc::clone(&self.1))
    }
}

#[test]
fn fold_by_key_clones_once_for_each_key_and_once_more() {
    let clones = Rc::new(Cell::new(0));
    let folds = convert("one two three four five six".split(' ').map(Ok::<&str, ()>)).fold_by_key(
        |word| Ok(word.len()),
        Text(String::from(">"), Rc::clone(&clones)),
        |text, word| Ok(Text(text.0 + word, text.1)),
    );
    let folds = folds.unwrap();
    assert_eq!(
        (&*folds[&3].0, &*folds[&4].0, &*folds[&5].0),
        (">onetwosix", ">fourfive", ">three")
    );
    assert_eq!(clones.get(), 4);
}

#[test]
fn fold_by_key_that_fails_keeps_no_clone() {
    let clones = Rc::new(Cell::new(0));
    let folds = convert([1, 1, 1].into_iter().map(Ok::<u32, u32>)).fold_by_key(
        |_| Ok(()),
        Text(String::new(), Rc::clone(&clones)),
        |text, x| {
            if text.0.len() < 2 {
                Ok(Text(text.0 + "x", text.1))
            } else {
                Err(x)
            }
        },
    );
    assert_eq!(folds.err(), Some(1));
    assert_eq!((clones.get(), Rc::strong_count(&clones)), (2, 1));
}

#[test]
fn what_is_written_by_hand_has_a_clone_and_a_debug_text() {
    let mut it = convert([Ok(1), Err(9u8), Ok(2)].into_iter()).err_into::<u32>();
    assert_eq!(it.next(), Ok(Some(1)));
    assert!(format!("{it:?}").starts_with("ErrInto { it: "));
    assert_eq!((it.clone().next(), it.next()), (Err(9), Err(9)));

    let sources = || [[Ok::<u32, ()>(1), Ok(4)], [Ok(2), Ok(3)]].map(|x| convert(x.into_iter()));
    let mut it = kmerge(sources());
    assert_eq!(it.next(), Ok(Some(1)));
    assert!(format!("{it:?}").starts_with("KMerge { tree: "));
    assert_eq!((it.clone().next(), it.next()), (Ok(Some(2)), Ok(Some(2))));

    let falls: fn(&u32, &u32) -> Result<bool, ()> = |x, y| Ok(x % 4 <= y % 4);
    let mut it = kmerge_by(sources(), falls);
    assert_eq!(it.next(), Ok(Some(1)));
    assert!(format!("{it:?}").starts_with("KMergeBy { tree: "));
    assert_eq!((it.clone().next(), it.next()), (Ok(Some(4)), Ok(Some(4))));
}
