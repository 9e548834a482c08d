//! The calls of `fallible-iterator`.
use crate::input::{again, beside, called, drain, told, Failure, Input, Item, Source, Way};
use crate::rows::{row, Held, Row, ANY, EQUALS, FLAT, ONE, ORDERS, SURE, TWO};
use fallible_iterator::{
    convert, convert_fused, empty, fold_if, from_fn, once, once_err, repeat, repeat_err,
    DoubleEndedFallibleIterator, FallibleIterator, IntoFallibleIterator, IteratorExt,
};
use Held::{All, Few, K};

pub const ADAPTERS: &[Row] = &[
    row("map", FLAT, Few, ANY, |s, w| drain(w, s.source().map(called))),
    row("filter", FLAT, Few, ANY, |s, w| drain(w, s.source().filter(|x| called(x.key % 3 == 0)))),
    row("filter_map", FLAT, Few, ANY, |s, w| {
        drain(w, s.source().filter_map(|x| called(Some(x).filter(|x| x.key % 3 == 0))))
    }),
    row("take", FLAT, Few, ANY, |s, w| drain(w, s.source().take(s.n()))),
    row("take_while", FLAT, Few, ANY, |s, w| drain(w, s.source().take_while(|_| called(true)))),
    row("map_while", FLAT, Few, ANY, |s, w| drain(w, s.source().map_while(|x| called(Some(x))))),
    row("skip", FLAT, Few, ANY, |s, w| drain(w, s.source().skip(s.k()))),
    row("skip_while", FLAT, Few, ANY, |s, w| {
        drain(w, s.source().skip_while(|x| called(x.key < s.n / 2)))
    }),
    row("step_by", FLAT, Few, ANY, |s, w| drain(w, s.source().step_by(s.k()))),
    row("fuse", FLAT, Few, ANY, |s, w| drain(w, s.source().fuse())),
    row("inspect", FLAT, Few, ANY, |s, w| drain(w, s.source().inspect(|_| called(())))),
    row("map_err", FLAT, Few, ANY, |s, w| drain(w, s.source().map_err(told))),
    row("enumerate", FLAT, Few, ANY, |s, w| drain(w, s.source().enumerate())),
    row("scan", FLAT, Few, ANY, |s, w| drain(w, s.source().scan((), |_, x| called(Some(x))))),
    row("cloned", FLAT, All, SURE, |s, w| {
        let all: Vec<Item> = s.source().unwrap().collect();
        drain(w, convert(all.iter().map(Ok::<_, Failure>)).cloned())
    }),
    row("rev", FLAT, Few, ANY, |s, w| drain(w, s.source().rev())),
    row("peekable", FLAT, Few, ANY, |s, w| drain(w, s.source().peekable())),
    row("by_ref", FLAT, Few, ANY, |s, w| drain(w, s.source().by_ref())),
    row("chain", FLAT, Few, TWO, |s, w| drain(w, s.first().chain(s.second()))),
    row("zip", FLAT, Few, TWO, |s, w| drain(w, s.first().zip(s.second()))),
    row("flatten", FLAT, K, TWO, |s, w| drain(w, parts(s).flatten())),
    row("flat_map", FLAT, K, TWO, |s, w| drain(w, parts(s).flat_map(called))),
    row("cycle", FLAT, Few, ANY, |s, w| {
        drain(w, Input { n: s.k, ..s }.source().cycle().take(s.n()))
    }),
    row("iterator", FLAT, Few, ANY, |s, _| s.source().iterator().for_each(drop)),
    row("unwrap", FLAT, Few, SURE, |s, _| s.source().unwrap().for_each(drop)),
    row("into_fallible_iter", FLAT, Few, ANY, |s, w| drain(w, s.source().into_fallible_iter())),
];

/// The k sources one after another.
fn parts(s: Input) -> impl FallibleIterator<Item = Source, Error = Failure> {
    convert(s.sources().into_iter().map(Ok))
}

/// The numbers to n, as std's iterator.
fn items(s: Input) -> impl DoubleEndedIterator<Item = Result<u64, Failure>> {
    (0..s.n).map(Ok)
}

pub const SOURCES: &[Row] = &[
    row("convert", FLAT, Few, ONE, |s, w| drain(w, convert(items(s)))),
    row("convert_fused", FLAT, Few, ONE, |s, w| drain(w, convert_fused(items(s)))),
    row("transpose_into_fallible", FLAT, Few, ONE, |s, w| {
        drain(w, items(s).transpose_into_fallible())
    }),
    row("into_fallible", FLAT, Few, ONE, |s, w| {
        drain(w, (0..s.n).into_fallible().map_err(|x| match x {}))
    }),
    row("once", FLAT, Few, ONE, |_, w| drain(w, once::<_, Failure>(Item::default()))),
    row("once_err", FLAT, Few, ONE, |_, w| drain(w, once_err::<Item, _>(Failure))),
    row("empty", FLAT, Few, ONE, |_, w| drain(w, empty::<Item, Failure>())),
    row("repeat", FLAT, Few, ONE, |s, w| {
        drain(w, repeat::<_, Failure>(Item::default()).take(s.n()))
    }),
    row("repeat_err", FLAT, Few, ONE, |s, _| {
        let mut it = repeat_err::<Item, _>(Failure);
        (0..s.n).for_each(|_| drop(it.next()));
    }),
    row("from_fn", FLAT, Few, ONE, |s, w| {
        let mut left = 0..s.n;
        drain(w, from_fn(|| called(left.next())))
    }),
];

pub const CONSUMERS: &[Row] = &[
    row("next", FLAT, Few, ANY, |s, _| drain(Way::Next, s.source())),
    row("draw", FLAT, Few, ANY, |s, _| {
        again(s, |it| {
            while it.draw()?.is_some() {}
            Ok(())
        })
    }),
    row("size_hint", FLAT, Few, ANY, |s, _| {
        let mut it = s.source().fuse();
        while it.size_hint().0 > 0 {
            let _ = it.next();
        }
    }),
    row("count", FLAT, Few, ANY, |s, _| again(s, |it| it.count())),
    row("last", FLAT, Few, ANY, |s, _| again(s, |it| it.last())),
    row("nth", FLAT, Few, ANY, |s, _| {
        again(s, |it| {
            while it.nth(s.k())?.is_some() {}
            Ok(())
        })
    }),
    row("try_fold", FLAT, Few, ANY, |s, _| again(s, |it| it.try_fold((), |(), _| called(())))),
    row("fold", FLAT, Few, ANY, |s, _| again(s, |it| it.fold((), |(), _| called(())))),
    row("reduce", FLAT, Few, ANY, |s, _| again(s, |it| it.reduce(|_, x| called(x)))),
    row("collect", FLAT, All, ANY, |s, _| again(s, |it| it.collect::<Vec<Item>>())),
    row("partition", FLAT, All, ANY, |s, _| {
        again(s, |it| it.partition::<Vec<Item>, _>(|x| called(x.key % 2 == 0)))
    }),
    row("unzip", FLAT, All, ANY, |s, _| {
        again(s, |it| it.map(|x| Ok((x.key, x))).unzip::<_, _, Vec<u64>, Vec<Item>>())
    }),
    row("for_each", FLAT, Few, ANY, |s, _| again(s, |it| it.for_each(|_| called(())))),
    row("all", FLAT, Few, ANY, |s, _| again(s, |it| it.all(|_| called(true)))),
    row("any", FLAT, Few, ANY, |s, _| again(s, |it| it.any(|_| called(false)))),
    row("find", FLAT, Few, ANY, |s, _| again(s, |it| it.find(|_| called(false)))),
    row("find_map", FLAT, Few, ANY, |s, _| again(s, |it| it.find_map(|_| called(None::<()>)))),
    row("position", FLAT, Few, ANY, |s, _| again(s, |it| it.position(|_| called(false)))),
    row("max", FLAT, Few, ORDERS, |s, _| again(s, |it| it.max())),
    row("min", FLAT, Few, ORDERS, |s, _| again(s, |it| it.min())),
    row("max_by_key", FLAT, Few, ORDERS, |s, _| again(s, |it| it.max_by_key(|x| called(x.key)))),
    row("min_by_key", FLAT, Few, ORDERS, |s, _| again(s, |it| it.min_by_key(|x| called(x.key)))),
    row("max_by", FLAT, Few, ORDERS, |s, _| again(s, |it| it.max_by(|x, y| called(x.cmp(y))))),
    row("min_by", FLAT, Few, ORDERS, |s, _| again(s, |it| it.min_by(|x, y| called(x.cmp(y))))),
    row("cmp", FLAT, Few, ANY, |s, _| beside(s, |it, other| it.cmp(other))),
    row("partial_cmp", FLAT, Few, ANY, |s, _| beside(s, |it, other| it.partial_cmp(other))),
    row("eq", FLAT, Few, ANY, |s, _| beside(s, |it, other| it.eq(other))),
    row("ne", FLAT, Few, ANY, |s, _| beside(s, |it, other| it.ne(other))),
    row("lt", FLAT, Few, ANY, |s, _| beside(s, |it, other| it.lt(other))),
    row("le", FLAT, Few, ANY, |s, _| beside(s, |it, other| it.le(other))),
    row("gt", FLAT, Few, ANY, |s, _| beside(s, |it, other| it.gt(other))),
    row("ge", FLAT, Few, ANY, |s, _| beside(s, |it, other| it.ge(other))),
    row("next_back", FLAT, Few, ANY, |s, _| {
        again(s, |it| {
            while it.next_back()?.is_some() {}
            Ok(())
        })
    }),
    row("draw_front", FLAT, Few, ANY, |s, _| {
        again(s, |it| {
            while it.draw_front()?.is_some() {}
            Ok(())
        })
    }),
    row("draw_back", FLAT, Few, ANY, |s, _| {
        again(s, |it| {
            while it.draw_back()?.is_some() {}
            Ok(())
        })
    }),
    row("try_rfold", FLAT, Few, ANY, |s, _| again(s, |it| it.try_rfold((), |(), _| called(())))),
    row("rfold", FLAT, Few, ANY, |s, _| again(s, |it| it.rfold((), |(), _| called(())))),
    row("peek", FLAT, Few, ANY, |s, _| ahead(s, |it| it.peek().map(drop))),
    row("peek_mut", FLAT, Few, ANY, |s, _| ahead(s, |it| it.peek_mut().map(drop))),
    row("look", FLAT, Few, ANY, |s, _| ahead(s, |it| it.look(|_| told(())).map(drop))),
    row("fill", FLAT, Few, ANY, |s, _| ahead(s, |it| it.fill())),
    row("held", FLAT, Few, ANY, |s, _| {
        ahead(s, |it| {
            it.held();
            Ok(())
        })
    }),
    row("held_mut", FLAT, Few, ANY, |s, _| {
        ahead(s, |it| {
            it.held_mut();
            Ok(())
        })
    }),
    row("peek_copied", FLAT, Few, ANY, |s, _| {
        let mut it = s.source().map(|x| Ok(x.key)).peekable();
        while !matches!(it.peek_copied(), Ok(None)) {
            let _ = it.next();
        }
    }),
    row("next_if", FLAT, Few, ANY, |s, _| ahead(s, |it| it.next_if(|_| told(false)).map(drop))),
    row("next_if_eq", FLAT, Few, EQUALS, |s, _| {
        let wanted = Item { key: u64::MAX, ..Item::default() };
        ahead(s, |it| it.next_if_eq(&wanted).map(drop))
    }),
    row("fold_if", FLAT, Few, EQUALS, |s, _| {
        let mut it = s.source().peekable();
        while fold_if(&mut it, (), |_| called(true), |(), _| called(())).is_err() {}
    }),
];

type Ahead = fallible_iterator::Peekable<Source>;

/// Looks ahead before each draw.
fn ahead(s: Input, mut look: impl FnMut(&mut Ahead) -> Result<(), Failure>) {
    let mut it = s.source().peekable();
    loop {
        let _ = look(&mut it);
        if matches!(it.next(), Ok(None)) {
            return;
        }
    }
}
