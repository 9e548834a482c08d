// changed: the fold of the proved `collect`, into an empty map
// proved: f4e7ac16
fn into_group_map<K, V>(mut self) -> Result<HashMap<K, Vec<V>>, Self::Error>
where
    Self: FallibleIterator<Item = (K, V)>,
    K: Eq + Hash,
{
    let mut made = GroupMap {
        groups: HashMap::new(),
    };
    whole(self.drive(&mut made, &CollectTurn))?;
    Ok(made.groups)
}
