//! How often calls compare, and how many items they keep at most.
use fallible_iterator::{FallibleIterator, convert};
use fallible_itertools::{FallibleItertools, kmerge_by};
use std::cell::Cell;
use std::cmp::Ordering;
use std::convert::Infallible;
use std::rc::Rc;

type Counter = Rc<Cell<usize>>;

/// A number that counts its comparisons, and how many such numbers live.
struct Counted {
    value: u64,
    compared: Counter,
    living: Counter,
}

impl Counted {
    fn new(value: u64, compared: &Counter, living: &Counter) -> Counted {
        living.set(living.get() + 1);
        Counted {
            value,
            compared: compared.clone(),
            living: living.clone(),
        }
    }
}

impl Drop for Counted {
    fn drop(&mut self) {
        self.living.set(self.living.get() - 1);
    }
}

impl Ord for Counted {
    fn cmp(&self, other: &Counted) -> Ordering {
        self.compared.set(self.compared.get() + 1);
        self.value.cmp(&other.value)
    }
}

impl PartialOrd for Counted {
    fn partial_cmp(&self, other: &Counted) -> Option<Ordering> {
        Some(self.cmp(other))
    }
}

impl PartialEq for Counted {
    fn eq(&self, other: &Counted) -> bool {
        self.cmp(other) == Ordering::Equal
    }
}

impl Eq for Counted {}

/// Scattered, rising and falling numbers.
fn orders(n: u64) -> [Vec<u64>; 3] {
    [
        (0..n).map(|i| i * 7_919 % n).collect(),
        (0..n).collect(),
        (0..n).rev().collect(),
    ]
}

/// The logarithm of 2, rounded up.
fn depth(n: usize) -> usize {
    let mut depth = 0;
    while 1 << depth < n {
        depth += 1;
    }
    depth
}

/// The comparisons of each call of `next`, over all of them.
fn compared_by_each_call(logs: Vec<Vec<u64>>) -> Vec<usize> {
    let compared = Cell::new(0);
    let sources = logs
        .into_iter()
        .map(|log| convert(log.into_iter().map(Ok::<u64, Infallible>)));
    let mut merged = kmerge_by(sources, |x, y| {
        compared.set(compared.get() + 1);
        Ok(x <= y)
    });
    let mut all = Vec::new();
    let mut last = None;
    while let Ok(Some(item)) = merged.next() {
        assert!(last <= Some(item));
        last = Some(item);
        all.push(compared.take());
    }
    all
}

#[test]
fn an_item_of_kmerge_takes_as_many_comparisons_as_the_tree_is_deep() {
    for sources in [1u64, 2, 3, 5, 8, 64, 100] {
        let each = 20;
        let interleaved = (0..sources).map(|s| (0..each).map(|i| i * sources + s).collect());
        let one_after_another =
            (0..sources).map(|s| (0..each).map(|i| s * each + i).collect::<Vec<u64>>());
        let backwards = (0..sources)
            .rev()
            .map(|s| (0..each).map(|i| s * each + i).collect::<Vec<u64>>());
        for logs in [
            interleaved.collect(),
            one_after_another.collect(),
            backwards.collect(),
        ] {
            let compared = compared_by_each_call(logs);
            let sources = sources as usize;
            assert_eq!(compared.len(), sources * each as usize);
            assert_eq!(compared[0], sources - 1);
            assert!(compared[1..].iter().all(|calls| *calls <= depth(sources)));
        }
    }
}

#[test]
fn k_smallest_keeps_twice_k_and_compares_some_n_log_k() {
    let n = 20_000;
    for order in orders(n) {
        for k in [1, 2, 10, 1_000] {
            let (compared, living, most) = (Counter::default(), Counter::default(), Cell::new(0));
            let items = order.iter().map(|value| {
                let item = Counted::new(*value, &compared, &living);
                most.set(living.get().max(most.get()));
                Ok::<Counted, Infallible>(item)
            });
            let least = convert(items).k_smallest(k).unwrap();
            let values: Vec<u64> = least.iter().map(|item| item.value).collect();
            assert_eq!(values, (0..k as u64).collect::<Vec<u64>>());
            assert!(most.get() <= 2 * k + 1, "{} of {k}", most.get());
            let bound = n as usize * (8 + 3 * depth(2 * k));
            assert!(
                compared.get() <= bound,
                "{} of {k}: {bound}",
                compared.get()
            );
        }
    }
}

#[test]
fn tail_keeps_as_many_items_as_it_returns() {
    for n in [0, 1, 10, 1_000] {
        let (compared, living, most) = (Counter::default(), Counter::default(), Cell::new(0));
        let items = (0..20_000).map(|value| {
            let item = Counted::new(value, &compared, &living);
            most.set(living.get().max(most.get()));
            Ok::<Counted, Infallible>(item)
        });
        let last = convert(items).tail(n).unwrap();
        assert_eq!(last.len(), n);
        assert!(most.get() <= n + 1, "{} of {n}", most.get());
    }
}
