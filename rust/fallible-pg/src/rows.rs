//! The rows of a result.

use crate::cells::Cells;
use crate::columns::Columns;
use crate::fault::{Damage, PgFault};
use crate::kind::{Kind, kind_of};
use crate::message::Message;
use crate::messages::Messages;
use crate::progress::Progress;
use crate::reading::ReadMessage;
use fallible_iterator::FallibleIterator;

/// A row, whose cells are undamaged.
#[derive(Clone, Debug, PartialEq, Eq)]
pub struct Row {
    message: Message,
    statement: u64,
}

impl Row {
    /// Its message.
    ///
    /// <details><summary>Contract</summary>
    ///
    /// As it is proved, in [these words](crate::words):
    ///
    /// ```text
    /// ensures { result.now ≡ self.now.message }
    /// ```
    /// </details>
    pub fn message(&self) -> &Message {
        &self.message
    }

    /// Which statement it is of: how many ended before it, among those of which rows were drawn. A refused one ends too. At most 2 ^ 64 - 1 are counted.
    ///
    /// <details><summary>Contract</summary>
    ///
    /// As it is proved, in [these words](crate::words):
    ///
    /// ```text
    /// ensures { result ≡ self.now.statement }
    /// ```
    /// </details>
    pub fn statement(&self) -> u64 {
        self.statement
    }

    /// Its cells: `None` at a NULL, which an empty cell isn't.
    ///
    /// <details><summary>Contract</summary>
    ///
    /// As it is proved, in [these words](crate::words):
    ///
    /// ```text
    /// ensures { shows_cells result ≡ cells_of (message_bytes self.now.message) }
    /// ```
    /// </details>
    pub fn cells(&self) -> Cells<'_> {
        Cells::new(self.message.bytes())
    }
}

/// What the results of a query bring.
#[derive(Clone, Debug, PartialEq, Eq)]
pub enum Reply {
    /// A row.
    Row(Row),
    /// A notice of the server, by its message.
    Notice(Message),
}

impl Reply {
    /// The row that it is, if it is one.
    ///
    /// <details><summary>Contract</summary>
    ///
    /// As it is proved, in [these words](crate::words):
    ///
    /// ```text
    /// ensures { result ≡ row_in self }
    /// ```
    /// </details>
    pub fn into_row(self) -> Option<Row> {
        match self {
            Reply::Row(row) => Some(row),
            Reply::Notice(_) => None,
        }
    }
}

/// The rows that messages of a server bring, and its notices between them: those of one query (`new`), or of a recording (`recorded`).
///
/// A draw passes the other messages: the description of rows, the end of a statement, those of a prepared statement and such. It reads the bytes of these and of the one that decides, and none of the next. A refusal of the server is the failure `Server`, and the next draw goes on. A row whose cells don't fill it, a message of a tag that isn't read, and each fault of the messages is a failure after which each call returns `Ok(None)` and reads no more. So is an end of the messages before the server is ready: `Damaged` and `Cut`.
///
/// Over a reader that tells its bytes they are a function of these.
#[derive(Debug)]
pub struct Rows<R> {
    messages: Messages<R>,
    progress: Progress,
    ended: bool,
}

// What is made of the end of the messages at a place: the end where the server was ready, and else damage.
fn at_end(ready: bool, place: u64) -> Result<Option<Reply>, PgFault> {
    if ready {
        Ok(None)
    } else {
        Err(PgFault::Damaged(place, Damage::Cut))
    }
}

impl<R: ReadMessage> Rows<R> {
    /// The rows of the results of one query, over the messages that come after it. They end where the server is ready for the next query, and `into_messages` returns the messages after that. It reads nothing.
    ///
    /// <details><summary>Contract</summary>
    ///
    /// As it is proved, in [these words](crate::words):
    ///
    /// ```text
    /// ensures { rows_parts result ≡ (messages_parts messages, begun false, false) }
    /// ```
    /// </details>
    pub fn new(messages: Messages<R>) -> Rows<R> {
        Rows {
            messages,
            progress: Progress::new(false),
            ended: false,
        }
    }

    /// The rows of a recording, over all that a server sent in a session, or from some query on. The messages that start a session are skipped. Where the server is ready they go on, up to the end of the messages. It reads nothing.
    ///
    /// <details><summary>Contract</summary>
    ///
    /// As it is proved, in [these words](crate::words):
    ///
    /// ```text
    /// ensures { rows_parts result ≡ (messages_parts messages, begun true, false) }
    /// ```
    /// </details>
    pub fn recorded(messages: Messages<R>) -> Rows<R> {
        Rows {
            messages,
            progress: Progress::new(true),
            ended: false,
        }
    }

    /// How many bytes of messages were read; 0 after the end of the messages and after a fault of theirs.
    ///
    /// <details><summary>Contract</summary>
    ///
    /// As it is proved, in [these words](crate::words):
    ///
    /// ```text
    /// ensures { result ≡ place_of (rows_parts self.now).0.1 }
    /// ```
    /// </details>
    pub fn place(&self) -> u64 {
        self.messages.place()
    }

    /// The columns of the rows, by the description that came last among what was read; `None` where none came, or the server said after it that a statement has no rows.
    ///
    /// <details><summary>Contract</summary>
    ///
    /// As it is proved, in [these words](crate::words):
    ///
    /// ```text
    /// ensures { AreColumns (rows_parts self.now).1.description result }
    /// ```
    /// </details>
    pub fn columns(&self) -> Option<Columns<'_>> {
        self.progress.columns()
    }

    /// The messages that come after what was read.
    ///
    /// <details><summary>Contract</summary>
    ///
    /// As it is proved, in [these words](crate::words):
    ///
    /// ```text
    /// ensures { messages_parts result ≡ (rows_parts self).0 }
    /// ```
    /// </details>
    pub fn into_messages(self) -> Messages<R> {
        self.messages
    }
}

impl<R: ReadMessage> FallibleIterator for Rows<R> {
    type Item = Reply;

    type Error = PgFault;

    fn next(&mut self) -> Result<Option<Reply>, PgFault> {
        if self.ended {
            return Ok(None);
        }
        self.ended = true;
        for _ in 0..u64::MAX {
            let place = self.messages.place();
            match self.messages.next() {
                Ok(Some(message)) => match kind_of(self.progress.is_recorded(), &message) {
                    Kind::Row => {
                        self.ended = false;
                        let statement = self.progress.statements();
                        self.progress.pass_row();
                        return Ok(Some(Reply::Row(Row { message, statement })));
                    }
                    Kind::Notice => {
                        self.ended = false;
                        return Ok(Some(Reply::Notice(message)));
                    }
                    Kind::Skipped => self.progress.pass(message),
                    Kind::Refusal => {
                        self.ended = false;
                        self.progress.pass_refusal();
                        return Err(PgFault::Server(message));
                    }
                    Kind::Ready => return Ok(None),
                    Kind::Damaged(damage) => return Err(PgFault::Damaged(place, damage)),
                },
                Ok(None) => return at_end(self.progress.is_ready(), place),
                Err(fault) => return Err(fault),
            }
        }
        // Not reached: each message has at least five bytes, and their place fits a `u64`.
        Err(PgFault::Damaged(self.messages.place(), Damage::Cut))
    }

    fn size_hint(&self) -> (usize, Option<usize>) {
        (0, None)
    }
}
