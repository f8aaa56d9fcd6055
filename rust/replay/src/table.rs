//! The repository's table as its Debug text shows it: who is held, in which state, with which numbers.

/// A connection's state, by the number that a state line shows.
#[derive(Debug, Clone, Copy, PartialEq, Eq)]
#[repr(u8)]
pub enum State {
    Idle = 0,
    Opening = 1,
    Established = 2,
    UploadInit = 3,
    UploadInProgress = 4,
    DownloadInProgress = 5,
    Closed = 6,
}

/// How far a DCF was read: its length, where the next entry begins, and how many are still counted.
#[derive(Debug, Clone, Copy, PartialEq, Eq)]
pub struct DcfLeft {
    pub length: usize,
    pub offset: usize,
    pub entries: u32,
}

/// One connection. The names are the repository's, shortened.
#[derive(Debug, Clone, PartialEq, Eq)]
pub struct Held {
    pub node: u8,
    pub state: State,
    pub transaction: u8,
    pub send: u8,
    pub last: u8,
    /// The transfer that is loaded, or what an upload has brought.
    pub buffer: Vec<u8>,
    pub offset: usize,
    pub total: usize,
    pub deadline: Option<u64>,
    pub retries: u32,
    /// The send number of the command outstanding.
    pub outstanding: Option<u8>,
    pub dcf: Option<DcfLeft>,
    /// Whether a read command waits to be sent.
    pub read_waits: bool,
}

impl Held {
    /// What an upload has brought so far; in other states the buffer is a transfer to be sent.
    pub fn uploaded(&self) -> &[u8] {
        match self.state {
            State::UploadInit | State::UploadInProgress => &self.buffer,
            _ => &[],
        }
    }

    /// Whether an ask that comes to this connection gets a command.
    pub fn gives(&self) -> bool {
        let something = match self.state {
            State::Opening | State::DownloadInProgress | State::UploadInProgress => true,
            State::Established => !self.buffer.is_empty() || self.read_waits,
            State::Idle | State::UploadInit | State::Closed => false,
        };
        something && self.outstanding.is_none()
    }

    /// Whether an ask that comes to this connection ends it.
    pub fn ends_at_ask(&self) -> bool {
        self.state == State::Established && !self.gives()
    }

    pub fn is_due(&self, time: u64) -> bool {
        self.deadline.is_some_and(|deadline| time >= deadline)
    }

    /// Whether a tick that comes to this connection gets a command.
    pub fn gives_at_tick(&self, time: u64) -> bool {
        self.is_due(time) && (self.retries == 0 || self.outstanding.is_some())
    }
}

#[derive(Debug, Clone, Default, PartialEq, Eq)]
pub struct Table {
    /// Ascending by node.
    pub held: Vec<Held>,
    /// The transaction number that was taken last.
    pub transaction: u8,
}

impl Table {
    pub fn get(&self, node: u8) -> Option<&Held> {
        self.held.iter().find(|held| held.node == node)
    }

    /// Whether the walk of ask sets a deadline: exactly when it gives a command.
    pub fn ask_sets_deadline(&self) -> bool {
        self.held.iter().any(Held::gives)
    }

    /// Whether the walk of tick sets a deadline: a connection that is due has retries left, and none
    /// before it gives a command.
    pub fn tick_sets_deadline(&self, time: u64) -> bool {
        let first = self.held.iter().find(|held| held.is_due(time));
        // One that is due either sets a deadline or gives an abort, so the first decides.
        first.is_some_and(|held| held.retries > 0)
    }
}
