//! Where this crate answers otherwise than fallible-iterator 0.3.0, by input and answer.
use fallible_iterator::{
    convert, empty, from_fn, once, once_err, repeat, DoubleEndedFallibleIterator, FallibleIterator,
};
use std::collections::{BTreeMap, BTreeSet, HashMap};
use std::panic::{catch_unwind, AssertUnwindSafe};

type Answer = Result<Option<u32>, u32>;

/// Gives these answers, and then ends.
fn script(answers: &[Answer]) -> impl FallibleIterator<Item = u32, Error = u32> + '_ {
    let mut left = answers.iter();
    from_fn(move || left.next().copied().unwrap_or(Ok(None)))
}

fn item(x: u32) -> Answer {
    Ok(Some(x))
}

const END: Answer = Ok(None);

fn answers(it: &mut dyn FallibleIterator<Item = u32, Error = u32>, n: usize) -> Vec<Answer> {
    (0..n).map(|_| it.next()).collect()
}

#[test]
fn skip_counts_on_after_a_failure() {
    let source = [item(1), Err(9), item(2), item(3)];
    assert_eq!(answers(&mut script(&source).skip(3), 3), [Err(9), END, END]);
}

#[test]
fn step_by_counts_on_after_a_failure() {
    let source = [item(1), item(2), Err(9), item(3), item(4)];
    assert_eq!(answers(&mut script(&source).step_by(2), 4), [item(1), Err(9), item(3), END]);
}

#[test]
#[should_panic]
fn step_by_asks_a_step() {
    let _ = repeat::<u32, u32>(1).step_by(0);
}

#[test]
fn peek_holds_an_end() {
    let source = [END, item(7)];
    let mut it = script(&source).peekable();
    assert_eq!(it.peek(), Ok(None));
    assert_eq!(it.size_hint(), (0, Some(0)));
    assert_eq!(it.next_if(|_| true), Ok(None));
    assert_eq!([it.next(), it.next()], [END, item(7)]);
}

#[test]
fn next_if_keeps_the_item_where_its_closure_panics() {
    let source = [item(1), item(2)];
    let mut it = script(&source).peekable();
    let called = catch_unwind(AssertUnwindSafe(|| it.next_if(|_| panic!("a closure"))));
    assert!(called.is_err());
    assert_eq!(answers(&mut it, 3), [item(1), item(2), END]);
}

#[test]
fn fuse_keeps_an_end_that_a_fold_met() {
    let source = [item(1), END, item(2)];
    let mut it = script(&source).fuse();
    assert_eq!(it.try_fold(0, |sum, x| Ok::<u32, u32>(sum + x)), Ok(1));
    assert_eq!(it.next(), END);
}

#[test]
fn searches_keep_the_end_of_fuse() {
    let source = [item(2), END, Err(9), Err(9), item(2)];
    let mut it = script(&source).fuse().skip_while(|x| Ok(*x != 2));
    assert_eq!(answers(&mut it, 5), [item(2), END, END, END, END]);
}

#[test]
fn an_inner_iterator_is_dropped_at_its_end() {
    let inner = [item(1), END, item(2)];
    let mut outer = [Ok(Some(())), Err(7)].into_iter();
    let mut it = from_fn(move || outer.next().unwrap_or(Ok(None))).flat_map(|()| Ok(script(&inner)));
    assert_eq!(answers(&mut it, 3), [item(1), Err(7), END]);
}

#[test]
fn enumerate_counts_each_drawn_item() {
    let mut it = convert([Ok(5), Err(()), Ok(6)].into_iter()).enumerate();
    assert_eq!(it.nth(1), Err(()));
    assert_eq!(it.next(), Ok(Some((1, 6))));
}

#[test]
fn the_last_of_a_chain_is_of_both() {
    assert_eq!(once::<u32, u32>(1).chain(empty()).last(), item(1));
}

#[test]
fn rev_counts_from_the_back() {
    let it = convert([Ok(0), Err(1), Ok(2), Err(3)].into_iter());
    assert_eq!(it.rev().count(), Err(3));
}

#[test]
fn hints_hold() {
    let mut chained = from_fn(|| END).chain(once(2));
    assert_eq!(chained.next(), item(2));
    assert_eq!(chained.size_hint(), (0, Some(0)));
    assert_eq!(empty::<u32, u32>().size_hint(), (0, Some(0)));
    assert_eq!(empty::<u32, u32>().cycle().size_hint(), (0, None));
    assert_eq!(once_err::<u32, u32>(4).iterator().size_hint(), (0, None));
    assert_eq!(once_err::<u32, u32>(4).iterator().collect::<Vec<_>>(), [Err(4)]);
    let failing = || convert([Err(1), Err(2), Ok(3), Err(4), Ok(5)].into_iter()).iterator();
    assert_eq!((failing().size_hint(), failing().count()), ((0, None), 5));
}

#[test]
fn what_std_has_besides() {
    let halves = convert([4, 0, 6].map(Ok::<u32, u32>).into_iter());
    let mut halves = halves.map_while(|x| Ok(if x > 0 { Some(x / 2) } else { None }));
    assert_eq!(answers(&mut halves, 4), [item(2), END, item(3), END]);
    let numbers = || convert([1, 2, 3].map(Ok::<u32, u32>).into_iter());
    assert_eq!(numbers().reduce(|a, b| Ok(a + b)), item(6));
    assert_eq!(numbers().rfold(0, |digits, x| Ok(digits * 10 + x)), Ok(321));
    let mut ahead = numbers().peekable();
    assert_eq!(ahead.look(|x| x + 1), item(2));
    assert_eq!(ahead.next(), item(1));
}

#[test]
fn collections_are_std_s_own() {
    let pairs = || convert([(1, 'a'), (2, 'b'), (1, 'c')].map(Ok::<(u32, char), u32>).into_iter());
    let sorted: BTreeMap<_, _> = pairs().collect().unwrap();
    let hashed: HashMap<_, _> = pairs().collect().unwrap();
    assert_eq!((sorted[&1], hashed[&1]), ('c', 'c'));
    let (keys, letters): (BTreeSet<_>, String) = pairs().unzip().unwrap();
    assert_eq!((keys.len(), letters.as_str()), (2, "abc"));
    let (low, high): (Vec<_>, Vec<_>) = pairs().partition(|p| Ok(p.0 == 1)).unwrap();
    assert_eq!((low.len(), high.len()), (2, 1));
    let failed: Result<Vec<u32>, u32> = script(&[item(1), Err(4), item(2)]).collect();
    assert_eq!(failed, Err(4));
}

#[test]
fn signatures_are_those_of_the_rust_crate() {
    let mut boxed: Box<dyn FallibleIterator<Item = u32, Error = u32>> = Box::new(repeat(3));
    assert_eq!(boxed.by_ref().take(2).count(), Ok(2));
    assert_eq!((*boxed).nth(1), item(3));
    let lent: &mut dyn FallibleIterator<Item = u32, Error = u32> = &mut *boxed;
    assert_eq!(lent.map(|x| Ok(x + 1)).next(), item(4));
    let words = || convert(["a", "b"].map(Ok::<&str, u32>).into_iter());
    let owned = || convert(["a", "b"].map(|x| Ok::<String, u32>(x.into())).into_iter());
    assert_eq!(words().eq(owned()), Ok(true));
    assert_eq!(owned().peekable().next_if_eq("a"), Ok(Some("a".into())));
    struct Zeros;
    impl FallibleIterator for Zeros {
        type Item = u32;
        type Error = u32;
        fn next(&mut self) -> Answer {
            item(0)
        }
        fn count(self) -> Result<usize, u32> {
            Ok(usize::MAX)
        }
    }
    assert_eq!(Zeros.size_hint(), (0, None));
    assert_eq!(Zeros.count(), Ok(usize::MAX));
}
