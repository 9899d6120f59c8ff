//! Calls to a replay program and the answers that they owe, given away block by block.

const BLOCK: usize = 1 << 16;

/// Where calls and owed answers go.
pub type Sink<'a, O> = dyn FnMut(Vec<u8>, Vec<O>) + 'a;

pub struct Blocks<'a, O> {
    sink: &'a mut Sink<'a, O>,
    calls: Vec<u8>,
    owed: Vec<O>,
}

impl<'a, O> Blocks<'a, O> {
    pub fn new(sink: &'a mut Sink<'a, O>) -> Self {
        Self { sink, calls: Vec::with_capacity(BLOCK), owed: Vec::new() }
    }

    /// What the next call owes: both go in one block.
    pub fn owe(&mut self, owed: O) {
        self.owed.push(owed);
    }

    pub fn write(&mut self, call: impl IntoIterator<Item = u8>) {
        self.calls.extend(call);
        if self.calls.len() >= BLOCK {
            self.flush();
        }
    }

    /// What is left, however little.
    pub fn flush(&mut self) {
        let calls = std::mem::replace(&mut self.calls, Vec::with_capacity(BLOCK));
        (self.sink)(calls, std::mem::take(&mut self.owed));
    }
}
