//! With the README's one line, which names no feature, each kind of call is there.
use fallible_iterator::{FallibleIterator, convert};
use fallible_itertools::{EitherOrBoth, FallibleItertools, MinMaxResult, kmerge};
use std::collections::HashMap;
use std::fmt::Error;

type Drawn = Result<u32, Error>;

fn of(items: &[u32]) -> impl FallibleIterator<Item = u32, Error = Error> + Clone + '_ {
    convert(items.iter().map(|item| Drawn::Ok(*item)))
}

#[test]
fn each_kind_of_call_is_there() -> Result<(), Error> {
    let five = [3, 1, 3, 2, 2];
    // Tallied and grouped.
    assert_eq!(of(&five).counts()?[&3], 2);
    assert_eq!(of(&five).counts_by(|x| Ok(x % 2))?[&1], 3);
    assert_eq!(of(&five).into_group_map_by(|x| Ok(x % 2))?[&0], [2, 2]);
    let pairs = of(&five).map(|x| Ok((x % 2, x)));
    assert_eq!(pairs.into_group_map()?[&1], [3, 1, 3]);
    let sums: HashMap<u32, u32> = of(&five).fold_by_key(|x| Ok(x % 2), 0, |sum, x| Ok(sum + x))?;
    assert_eq!(sums[&1], 7);
    // Once each.
    assert_eq!(of(&five).unique().collect::<Vec<_>>()?, [3, 1, 2]);
    assert_eq!(of(&five).unique_by(|x| Ok(x % 2)).count()?, 2);
    assert_eq!(of(&five).duplicates().collect::<Vec<_>>()?, [3, 2]);
    assert!(!of(&five).all_unique()?);
    // In runs.
    assert_eq!(of(&five).dedup().count()?, 4);
    assert_eq!(of(&five).dedup_with_count().last()?, Some((2, 2)));
    assert_eq!(of(&five).chunk_by(|x| Ok(*x > 2)).count()?, 4);
    assert_eq!(of(&five).chunks(2).count()?, 3);
    // In order.
    assert_eq!(of(&five).sorted()?, [1, 2, 2, 3, 3]);
    assert_eq!(of(&five).k_smallest(2)?, [1, 2]);
    assert_eq!(of(&five).tail(2)?, [2, 2]);
    // Of many.
    assert_eq!(
        kmerge([of(&[1, 4]), of(&[2, 3])]).collect::<Vec<_>>()?,
        [1, 2, 3, 4]
    );
    assert_eq!(of(&[1]).merge(of(&[0, 2])).count()?, 3);
    assert_eq!(of(&[1]).interleave(of(&[0, 2])).count()?, 3);
    let both = of(&[1]).zip_longest(of(&[0, 2])).last()?;
    assert_eq!(both, Some(EitherOrBoth::Right(2)));
    // Beside each other.
    assert_eq!(of(&five).tuple_windows().count()?, 4);
    assert_eq!(of(&five).with_position().count()?, 5);
    // As one text, and one item.
    assert_eq!(of(&five).join(" ")?, "3 1 3 2 2");
    assert_eq!(of(&[7]).exactly_one()?, Ok(7));
    // Looked for.
    let names = ["fern".to_string(), "moss".to_string()];
    let found = convert(names.iter().cloned().map(Ok::<_, Error>)).minmax()?;
    assert_eq!(
        found.clone().into_option().map(|(least, _)| least),
        Some("fern".into())
    );
    assert!(matches!(found, MinMaxResult::MinMax(_, _)));
    assert_eq!(of(&five).position_max()?, Some(2));
    // Sums that may not fit.
    assert_eq!(of(&five).checked_sum()?, Some(11));
    Ok(())
}
