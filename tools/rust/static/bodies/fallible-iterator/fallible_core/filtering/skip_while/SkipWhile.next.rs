// changed: by the source's own `find`, as the original's
// proved: 882a57e3
fn next(&mut self) -> Result<Option<I::Item>, I::Error> {
    if self.skipping.0 {
        self.it.next()
    } else {
        let skipping = &mut self.skipping;
        self.it.find(|x| SkipWhileTest.test(skipping, x))
    }
}
