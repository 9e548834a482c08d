//! How far rows have come.

use crate::columns::Columns;
use crate::message::Message;

// How far rows have come.
#[derive(Debug)]
pub(crate) struct Progress {
    // whether they are those of a recording, which goes on where the server is ready
    recorded: bool,
    // whether the server is ready, and nothing of a query came since
    ready: bool,
    // how many statements ended
    statements: u64,
    // the message that describes rows, where one came
    description: Option<Message>,
}

// Whether messages with this tag may come at any time: a parameter or a notification.
fn comes_any_time(tag: u8) -> bool {
    tag == b'S' || tag == b'A'
}

// Whether the server is ready after a skipped message with this tag.
fn ready_by(tag: u8, ready: bool) -> bool {
    if tag == b'Z' {
        true
    } else if comes_any_time(tag) {
        ready
    } else {
        false
    }
}

// One statement more. At most 2 ^ 64 - 1 are counted.
fn one_more(count: u64) -> u64 {
    if count == u64::MAX { count } else { count + 1 }
}

// How many statements ended, after a skipped message with this tag.
fn statements_by(tag: u8, count: u64) -> u64 {
    if tag == b'C' || tag == b'I' {
        one_more(count)
    } else {
        count
    }
}

impl Progress {
    // Before the first message.
    pub(crate) fn new(recorded: bool) -> Progress {
        Progress {
            recorded,
            ready: false,
            statements: 0,
            description: None,
        }
    }

    // Whether rows are those of a recording.
    pub(crate) fn is_recorded(&self) -> bool {
        self.recorded
    }

    // Whether the server is ready, and nothing of a query came since.
    pub(crate) fn is_ready(&self) -> bool {
        self.ready
    }

    // How many statements ended.
    pub(crate) fn statements(&self) -> u64 {
        self.statements
    }

    // The columns of the rows, where these were described.
    pub(crate) fn columns(&self) -> Option<Columns<'_>> {
        match &self.description {
            Some(message) => Some(Columns::new(message.bytes())),
            None => None,
        }
    }

    // After a skipped message.
    pub(crate) fn pass(&mut self, message: Message) {
        let tag = message.tag();
        self.ready = ready_by(tag, self.ready);
        self.statements = statements_by(tag, self.statements);
        if tag == b'T' {
            self.description = Some(message);
        } else if tag == b'n' {
            self.description = None;
        }
    }

    // After a row.
    pub(crate) fn pass_row(&mut self) {
        self.ready = false;
    }

    // After a refusal.
    pub(crate) fn pass_refusal(&mut self) {
        self.ready = false;
        self.statements = one_more(self.statements);
    }
}
