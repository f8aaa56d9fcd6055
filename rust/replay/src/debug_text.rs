//! Reads the Debug text of the repository's manager. Its table is private, and this text is all that
//! it shows of it. A text of another form is an error that says where it stopped.

use crate::table::{DcfLeft, Held, State, Table};

type Parsed<T> = Result<T, String>;

/// How much of the text an error shows.
const SHOWN: usize = 40;

/// The manager, from `SdoClientManager { connections: {..}, next_transaction_id: 0 }`.
pub fn table(text: &str) -> Parsed<Table> {
    let mut text = Text::new(text);
    text.eat("SdoClientManager { connections: {")?;
    let mut held = Vec::new();
    while !text.has("}") {
        if !held.is_empty() {
            text.eat(", ")?;
        }
        let node: u8 = text.node()?;
        text.eat(": ")?;
        let connection = text.connection()?;
        if connection.node != node {
            return text.wrong("a connection under the node that it has");
        }
        held.push(connection);
    }
    text.eat(", next_transaction_id: ")?;
    let transaction = text.number()?;
    text.eat(" }")?;
    text.end()?;
    Ok(Table { held, transaction })
}

/// One connection, from `Connection(SdoClientConnection { .. })`.
pub fn connection(text: &str) -> Parsed<Held> {
    let mut text = Text::new(text);
    text.eat("Connection(")?;
    let held = text.connection()?;
    text.eat(")")?;
    text.end()?;
    Ok(held)
}

/// The text, and how far it was read.
struct Text<'a> {
    bytes: &'a [u8],
    at: usize,
}

impl<'a> Text<'a> {
    fn new(text: &'a str) -> Self {
        let bytes = text.as_bytes();
        Self { bytes, at: 0 }
    }

    fn wrong<T>(&self, wanted: &str) -> Parsed<T> {
        let end = self.bytes.len().min(self.at + SHOWN);
        let found = String::from_utf8_lossy(&self.bytes[self.at..end]);
        Err(format!(
            "Debug text, place {}: {wanted} wanted, found {found:?}",
            self.at
        ))
    }

    /// Passes over the given text if it is there.
    fn has(&mut self, wanted: &str) -> bool {
        let found = self.bytes[self.at..].starts_with(wanted.as_bytes());
        if found {
            self.at += wanted.len();
        }
        found
    }

    fn eat(&mut self, wanted: &str) -> Parsed<()> {
        if self.has(wanted) {
            return Ok(());
        }
        self.wrong(&format!("{wanted:?}"))
    }

    fn end(&self) -> Parsed<()> {
        if self.at == self.bytes.len() {
            return Ok(());
        }
        self.wrong("the end")
    }

    fn number<T: TryFrom<u64>>(&mut self) -> Parsed<T> {
        let begin = self.at;
        let mut value = 0_u64;
        while let Some(digit) = self.digit() {
            let next = value.checked_mul(10);
            let Some(next) = next.and_then(|next| next.checked_add(u64::from(digit))) else {
                return self.wrong("a number of 64 bits");
            };
            value = next;
            self.at += 1;
        }
        let number = T::try_from(value).ok();
        match number {
            Some(number) if self.at > begin => Ok(number),
            _ => self.wrong("a number in its range"),
        }
    }

    fn digit(&self) -> Option<u8> {
        let byte = self.bytes.get(self.at)?;
        byte.is_ascii_digit().then(|| byte - b'0')
    }

    /// A list of bytes: `[1, 2, 3]`.
    fn bytes(&mut self) -> Parsed<Vec<u8>> {
        let mut bytes = Vec::new();
        self.eat("[")?;
        while !self.has("]") {
            if !bytes.is_empty() {
                self.eat(", ")?;
            }
            bytes.push(self.number()?);
        }
        Ok(bytes)
    }

    fn option<T>(&mut self, inner: impl FnOnce(&mut Self) -> Parsed<T>) -> Parsed<Option<T>> {
        if self.has("None") {
            return Ok(None);
        }
        self.eat("Some(")?;
        let value = inner(self)?;
        self.eat(")")?;
        Ok(Some(value))
    }

    /// Passes over the rest of a value whose opening bracket was read. No text in it has quotes.
    fn skip_to_close(&mut self) -> Parsed<()> {
        let mut depth = 1;
        while depth > 0 {
            match self.bytes.get(self.at) {
                Some(b'(' | b'[' | b'{') => depth += 1,
                Some(b')' | b']' | b'}') => depth -= 1,
                Some(_) => {}
                None => return self.wrong("a closing bracket"),
            }
            self.at += 1;
        }
        Ok(())
    }

    fn node(&mut self) -> Parsed<u8> {
        self.eat("NodeId(")?;
        let node = self.number()?;
        self.eat(")")?;
        Ok(node)
    }

    /// A value behind the text that announces it.
    fn after<T>(
        &mut self,
        announced: &str,
        value: impl FnOnce(&mut Self) -> Parsed<T>,
    ) -> Parsed<T> {
        self.eat(announced)?;
        value(self)
    }

    /// Rust takes the fields in the order in which they are written, and this is that of the text.
    fn connection(&mut self) -> Parsed<Held> {
        let held = Held {
            node: self.after("SdoClientConnection { target_node_id: ", Self::node)?,
            state: self.after(", state: ", Self::state)?,
            transaction: self.after(", transaction_id: ", Self::number)?,
            send: self.after(", send_sequence_number: ", Self::number)?,
            last: self.after(", last_received_sequence_number: ", Self::number)?,
            buffer: self.after(", data_buffer: ", Self::bytes)?,
            offset: self.after(", offset: ", Self::number)?,
            total: self.after(", total_size: ", Self::number)?,
            deadline: self.after(", deadline_us: ", |text| text.option(Self::number))?,
            retries: self.after(", retries_left: ", Self::number)?,
            outstanding: self.after(", last_sent_command: ", |text| text.option(Self::sent))?,
            dcf: self.after(", current_job: ", |text| text.option(Self::dcf))?,
            read_waits: self
                .after(", pending_command: ", |text| text.option(Self::command))?
                .is_some(),
        };
        self.eat(" }")?;
        Ok(held)
    }

    fn state(&mut self) -> Parsed<State> {
        // No name begins with another, so the order does not matter.
        for (name, state) in [
            ("Idle", State::Idle),
            ("Opening", State::Opening),
            ("Established", State::Established),
            ("UploadInit", State::UploadInit),
            ("UploadInProgress", State::UploadInProgress),
            ("DownloadInProgress", State::DownloadInProgress),
            ("Closed", State::Closed),
        ] {
            if self.has(name) {
                return Ok(state);
            }
        }
        self.wrong("a state")
    }

    /// The send number of what was sent: `(SequenceLayerHeader { .. }, SdoCommand { .. })`.
    fn sent(&mut self) -> Parsed<u8> {
        self.eat("(SequenceLayerHeader { receive_sequence_number: ")?;
        self.number::<u8>()?;
        self.eat(", receive_con: ")?;
        while self.bytes.get(self.at).is_some_and(u8::is_ascii_alphabetic) {
            self.at += 1;
        }
        self.eat(", send_sequence_number: ")?;
        let number = self.number()?;
        self.skip_to_close()?;
        self.eat(", ")?;
        self.command()?;
        self.eat(")")?;
        Ok(number)
    }

    /// A command is not looked at: what is sent is compared as bytes.
    fn command(&mut self) -> Parsed<()> {
        self.eat("SdoCommand {")?;
        self.skip_to_close()
    }

    fn dcf(&mut self) -> Parsed<DcfLeft> {
        let left = DcfLeft {
            length: self.after("ConciseDcf { data: ", Self::bytes)?.len(),
            offset: self.after(", offset: ", Self::number)?,
            entries: self.after(", entries_remaining: ", Self::number)?,
        };
        self.eat(" }")?;
        Ok(left)
    }
}

#[cfg(test)]
mod tests;
