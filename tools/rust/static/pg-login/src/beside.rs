//! What is printed and is no row: the names of the columns, before the rows, and the data of COPY.
use fallible_iterator::FallibleIterator;
use fallible_pg::{
    Bytes, Damage, Format, HoldText, Message, Messages, PgFault, PgInput, ReadByte, ReadFailed,
    ReadMessage, Row, RowText, Rows, RunFault,
};
use std::cell::RefCell;
use std::io::{self, Write};
use std::rc::Rc;

/// A writer that two hold.
#[derive(Debug)]
pub struct Shared<W>(pub Rc<RefCell<W>>);

impl<W> Clone for Shared<W> {
    fn clone(&self) -> Shared<W> {
        Shared(Rc::clone(&self.0))
    }
}

impl<W: Write> Write for Shared<W> {
    fn write(&mut self, bytes: &[u8]) -> io::Result<usize> {
        self.0.borrow_mut().write(bytes)
    }

    fn write_all(&mut self, bytes: &[u8]) -> io::Result<()> {
        self.0.borrow_mut().write_all(bytes)
    }

    fn flush(&mut self) -> io::Result<()> {
        self.0.borrow_mut().flush()
    }
}

/// What who asks after it is told of the messages.
#[derive(Debug, Default)]
pub struct Seen {
    /// Why no more were read.
    pub stopped: Option<RunFault<PgInput>>,
    /// How many bytes those of COPY took, which were printed.
    pub copied: u64,
}

/// The bytes of messages, as a reader that holds one. Before a description goes on, the names of its columns are printed, where they are wanted. The messages of `COPY .. TO STDOUT` don't go on: their data is printed as it is.
pub struct Beside<'a, R, W> {
    messages: Messages<R>,
    message: Option<Message>,
    given: usize,
    place: u64,
    format: Format<'a>,
    /// Whether names are printed.
    names: bool,
    /// Whether data of COPY may come.
    copying: bool,
    output: Shared<W>,
    seen: Rc<RefCell<Seen>>,
}

impl<'a, R, W> Beside<'a, R, W> {
    pub fn new(
        messages: Messages<R>,
        format: Format<'a>,
        names: bool,
        output: Shared<W>,
    ) -> Beside<'a, R, W> {
        Beside {
            messages,
            message: None,
            given: 0,
            place: 0,
            format,
            names,
            copying: false,
            output,
            seen: Rc::default(),
        }
    }

    /// Where it will be told what it saw.
    pub fn seen(&self) -> Rc<RefCell<Seen>> {
        Rc::clone(&self.seen)
    }
}

impl<R: ReadMessage, W: Write> Beside<'_, R, W> {
    fn stop(&self, fault: RunFault<PgInput>) -> ReadFailed {
        self.seen.borrow_mut().stopped = Some(fault);
        ReadFailed::new()
    }

    fn damaged(&self, damage: Damage) -> ReadFailed {
        self.stop(RunFault::Input(PgInput::Damaged(self.place, damage)))
    }

    /// Draws a message that goes on. Whether there was one.
    fn draw(&mut self) -> Result<bool, ReadFailed> {
        (self.message, self.given) = (None, 0);
        while self.message.is_none() {
            let drawn = self.messages.next().map_err(|fault| match fault {
                PgFault::Read(failed) => failed,
                PgFault::Memory => self.stop(RunFault::Memory),
                PgFault::Server(message) => self.stop(RunFault::Input(PgInput::Server(message))),
                PgFault::Damaged(place, damage) => {
                    self.stop(RunFault::Input(PgInput::Damaged(place, damage)))
                }
            })?;
            let Some(message) = drawn else {
                return Ok(false);
            };
            let size = message.bytes().len() as u64;
            if self.takes(&message)? {
                self.seen.borrow_mut().copied += size;
            } else {
                self.message = Some(message);
            }
            self.place += size;
        }
        Ok(true)
    }

    /// Prints what a message has beside rows. Whether that is all of it, since it is one of COPY.
    fn takes(&mut self, message: &Message) -> Result<bool, ReadFailed> {
        match (message.tag(), self.copying) {
            (b'H', false) => self.copying = true,
            (b'c', true) => self.copying = false,
            (b'd', true) => self.put(message.body())?,
            // A notice, a parameter, what another session notifies of.
            (b'N' | b'S' | b'A', true) => return Ok(false),
            (tag, true) if tag != b'E' => return Err(self.damaged(Damage::Tag(tag))),
            (tag, _) => {
                self.copying = false;
                if tag == b'T' && self.names {
                    self.print(message)?;
                }
                return Ok(false);
            }
        }
        Ok(true)
    }

    fn put(&self, bytes: &[u8]) -> Result<(), ReadFailed> {
        let written = self.output.clone().write_all(bytes);
        written.map_err(|error| self.stop(RunFault::Write(error.into())))
    }

    /// Prints the names of a description.
    fn print(&self, description: &Message) -> Result<(), ReadFailed> {
        let Some(names) = names_of(description) else {
            return Err(self.damaged(Damage::Columns));
        };
        let mut line = RowText::new();
        if !line.hold_row(&names, self.format) {
            return Err(self.stop(RunFault::Memory));
        }
        match line.held() {
            // Of no columns psql prints an empty line.
            [] => self.put(b"\n"),
            text => self.put(text),
        }
    }
}

/// The names of a description, as a row.
fn names_of(description: &Message) -> Option<Row> {
    let mut rows = Rows::recorded(Messages::unbuffered(Bytes::new(description.bytes())));
    // The description is passed, and the message after it is missing.
    let _ = rows.next();
    let (mut columns, mut cells, mut count) = (rows.columns()?, Vec::new(), 0u16);
    while let Some(column) = columns.next().ok()? {
        cells.extend_from_slice(&u32::try_from(column.name.len()).ok()?.to_be_bytes());
        cells.extend_from_slice(column.name);
        count += 1;
    }
    let length = u32::try_from(cells.len() + 6).ok()?;
    let mut row = vec![b'D'];
    row.extend_from_slice(&length.to_be_bytes());
    row.extend_from_slice(&count.to_be_bytes());
    row.extend_from_slice(&cells);
    let mut rows = Rows::recorded(Messages::unbuffered(Bytes::new(&row)));
    rows.next().ok()??.into_row()
}

impl<R: ReadMessage, W: Write> ReadByte for Beside<'_, R, W> {
    fn read_byte(&mut self) -> Result<Option<u8>, ReadFailed> {
        if self.buffered().is_empty() && !self.draw()? {
            return Ok(None);
        }
        let byte = self.buffered()[0];
        self.given += 1;
        Ok(Some(byte))
    }

    fn buffered(&self) -> &[u8] {
        let message = self.message.as_ref();
        message.map_or(&[], |message| &message.bytes()[self.given..])
    }

    fn consume_buffered(&mut self, count: usize) {
        self.given += count;
    }
}
