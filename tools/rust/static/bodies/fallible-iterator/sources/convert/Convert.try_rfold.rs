// new: by the std iterator's own
// in: DoubleEndedFallibleIterator for Convert
#[inline(always)]
fn try_rfold<Value, Failed, Step>(&mut self, init: Value, mut f: Step) -> Result<Value, Failed>
where
    Failed: From<E>,
    Step: FnMut(Value, T) -> Result<Value, Failed>,
{
    self.it.try_rfold(init, |value, element| match element {
        Ok(item) => f(value, item),
        Err(e) => Err(Failed::from(e)),
    })
}
