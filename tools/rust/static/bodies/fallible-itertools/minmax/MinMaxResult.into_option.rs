// changed: of what can be cloned
// proved: e4effb52
pub fn into_option(self) -> Option<(T, T)> {
    match self {
        MinMaxResult::NoElements => None,
        MinMaxResult::OneElement(only) => Some((only.clone(), only)),
        MinMaxResult::MinMax(least, greatest) => Some((least, greatest)),
    }
}
