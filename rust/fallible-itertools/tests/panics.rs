//! Where a call panics.
use fallible_iterator::convert;
use fallible_itertools::FallibleItertools;

#[test]
#[should_panic]
fn chunks_asks_a_number() {
    let _ = convert([Ok::<u32, u8>(1)].into_iter()).chunks(0);
}
