//! `NotOne` goes on by `?` as any error.
use fallible_iterator::convert;
use fallible_itertools::{FallibleItertools, NotOne};
use std::error::Error;

fn only(items: &[u32]) -> Result<u32, Box<dyn Error>> {
    let found = convert(items.iter().copied().map(Ok::<u32, std::fmt::Error>)).exactly_one()?;
    Ok(found?)
}

#[test]
fn not_one_is_an_error() {
    assert_eq!(only(&[7]).ok(), Some(7));
    let none = only(&[]).unwrap_err();
    assert_eq!(none.to_string(), "no item came");
    assert!(matches!(
        none.downcast_ref::<NotOne<u32>>(),
        Some(NotOne::NoItem)
    ));
    assert_eq!(
        only(&[1, 2]).unwrap_err().to_string(),
        "more than one item came"
    );
}
