// new: by the std iterator's own
// in: FallibleIterator for IntoFallible
#[inline(always)]
fn try_fold<Value, Failed, Step>(&mut self, init: Value, f: Step) -> Result<Value, Failed>
where
    Failed: From<Infallible>,
    Step: FnMut(Value, T) -> Result<Value, Failed>,
{
    self.it.try_fold(init, f)
}
