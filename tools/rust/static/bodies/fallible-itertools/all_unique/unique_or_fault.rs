// changed: a refusal has no value
// proved: 98a8ea2f
pub fn unique_or_fault<E>(answer: Result<Option<Option<AllocError>>, E>) -> Result<bool, E>
{
    match answer {
        Ok(None) => Ok(true),
        Ok(Some(None)) => Ok(false),
        Ok(Some(Some(refused))) => match refused {},
        Err(e) => Err(e),
    }
}
