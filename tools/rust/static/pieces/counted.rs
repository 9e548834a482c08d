impl<'a, I: FallibleIterator> FallibleIterator for Counted<'a, I> {
    type Item = I::Item;

    type Error = I::Error;

    fn next(&mut self) -> Result<Option<I::Item>, I::Error> {
        add(&self.log.nexts);
        self.it.next()
    }

    fn size_hint(&self) -> (usize, Option<usize>) {
        self.it.size_hint()
    }

    fn try_fold<Value, Failed, Step>(&mut self, init: Value, f: Step) -> Result<Value, Failed>
    where
        Failed: From<I::Error>,
        Step: FnMut(Value, I::Item) -> Result<Value, Failed>,
    {
        add(&self.log.folds);
        self.it.try_fold(init, f)
    }

    fn count(self) -> Result<usize, I::Error> {
        add(&self.log.counts);
        self.it.count()
    }

    fn last(self) -> Result<Option<I::Item>, I::Error> {
        add(&self.log.lasts);
        self.it.last()
    }

    fn nth(&mut self, n: usize) -> Result<Option<I::Item>, I::Error> {
        add(&self.log.nths);
        self.it.nth(n)
    }
}

impl<'a, I: DoubleEndedFallibleIterator> DoubleEndedFallibleIterator for Counted<'a, I> {
    fn next_back(&mut self) -> Result<Option<I::Item>, I::Error> {
        add(&self.log.next_backs);
        self.it.next_back()
    }

    fn try_rfold<Value, Failed, Step>(&mut self, init: Value, f: Step) -> Result<Value, Failed>
    where
        Failed: From<I::Error>,
        Step: FnMut(Value, I::Item) -> Result<Value, Failed>,
    {
        add(&self.log.rfolds);
        self.it.try_rfold(init, f)
    }
}
