//! The words that both ways share: for the states of a sequence header and for the flags of a reply.

/// States of a sequence header, by their numbers in document 01. The last one differs: on receive it
/// is ErrorResponse, on send ConnectionValidAckRequest.
pub const RECEIVE_STATES: [&str; 4] = ["none", "init", "valid", "error"];
pub const SEND_STATES: [&str; 4] = ["none", "init", "valid", "request"];

/// The states of a reply that says nothing about them: ConnectionValid, both.
pub const USUAL_STATES: [u8; 2] = [2, 2];

/// Sequence numbers are below this.
pub const NUMBERS: u8 = 64;

/// Kinds by their segmentation, which stands above the two marks in the flags of a reply.
pub const KINDS: [&str; 4] = ["expedited", "initiate", "segment", "complete"];
pub const KIND_UNIT: u8 = 64;
/// Bits that have no word.
pub const RESERVED: u8 = 0x0F;

/// One octet of the sequence header.
pub fn octet(number: u8, state: u8) -> u8 {
    number * 4 + state
}

/// Number and state of an octet of the sequence header.
pub fn number_and_state(octet: u8) -> (u8, u8) {
    (octet / 4, octet % 4)
}

/// The two states in words: `init`, or `valid/request` where they differ.
pub fn states_text([receive, send]: [u8; 2]) -> String {
    let receive = RECEIVE_STATES[usize::from(receive)];
    let send = SEND_STATES[usize::from(send)];
    if receive == send {
        receive.into()
    } else {
        format!("{receive}/{send}")
    }
}

/// The two states that a word names, if it names any.
pub fn states(word: &str) -> Option<[u8; 2]> {
    let (receive, send) = word.split_once('/').unwrap_or((word, word));
    Some([place(&RECEIVE_STATES, receive)?, place(&SEND_STATES, send)?])
}

/// Whether a word was meant to name states: it has the mark between two of them, or is one that only one side has.
pub fn meant_as_states(word: &[u8]) -> bool {
    let mut all = RECEIVE_STATES.iter().chain(&SEND_STATES);
    word.contains(&b'/') || all.any(|state| state.as_bytes() == word)
}

/// The segmentation that a word names, if it names any.
pub fn kind(word: &str) -> Option<u8> {
    place(&KINDS, word)
}

fn place(words: &[&str; 4], word: &str) -> Option<u8> {
    let place = words.iter().position(|&known| known == word)?;
    Some(place as u8)
}
