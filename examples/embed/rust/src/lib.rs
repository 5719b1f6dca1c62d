//! The core in Rust: a safe wrapper over `simcore.h`. What the header asks of C is kept by the types: each pointer and its length are
//! those of a slice, what a call writes is borrowed alone, and a handle is owned by one value, which closes it.
//!
//! `Match` is level one, which keeps nothing; `Client`, `Server` and `Game` are level two; `run` is any command of the program.

mod held;
mod net;
mod raw;
mod run;

pub use held::{Game, Held};
pub use net::{frames, Client, Server};
use raw::*;
pub use raw::{Entity, Facts, Standing, JOINING, OFF, ON};
pub use run::{run, Ran};
use std::fmt;

/// Why there is no answer. The numbers are those of the header's `simcore_fault`.
#[derive(Clone, Copy, Debug, PartialEq, Eq)]
pub enum Error {
    /// The bytes are no match.
    Match {
        code: u32,
        index: u32,
    },
    /// The bytes stand for no state of the match; of two states it is the second one.
    State {
        code: u32,
        second: bool,
    },
    /// The bytes are no list of commands, from this item on, or at 0 in the whole; or they are no command.
    Commands {
        item: u32,
    },
    OutOfMemory,
    /// All turns of the match were played.
    Over,
    /// A file is longer than four bytes count.
    Files,
    /// The bytes are no frame.
    Frame,
    /// The match has no such player, or fewer than are to begin.
    Player,
    /// The client has no state.
    NotOn,
    /// The library has a status that the header has not.
    Unknown(i32),
}

impl fmt::Display for Error {
    fn fmt(&self, f: &mut fmt::Formatter<'_>) -> fmt::Result {
        match self {
            Error::Match { code, index } => write!(f, "match refused {code} {index}"),
            Error::State { code, .. } => write!(f, "state refused {code}"),
            Error::Commands { item } => write!(f, "list refused {item}"),
            Error::OutOfMemory => write!(f, "no memory"),
            Error::Over => write!(f, "all turns were played"),
            Error::Files => write!(f, "files refused"),
            Error::Frame => write!(f, "frame refused"),
            Error::Player => write!(f, "no such player"),
            Error::NotOn => write!(f, "the client is not on"),
            Error::Unknown(status) => write!(f, "status {status}"),
        }
    }
}

impl std::error::Error for Error {}

/// A stored state and its digest.
#[derive(Clone, Debug, PartialEq, Eq)]
pub struct State {
    pub bytes: Vec<u8>,
    pub digest: [u8; 16],
}

const DIFFERS: i32 = 1;
const NO_ROOM: i32 = 100;
const FILES_REFUSED: i32 = 106;

fn refused(status: i32, fault: &Fault) -> Error {
    match status {
        6 => Error::Match { code: fault.code, index: fault.index },
        7 => Error::State { code: fault.code, second: fault.index == 1 },
        8 => Error::Commands { item: fault.index },
        9 => Error::OutOfMemory,
        10 => Error::Over,
        FILES_REFUSED => Error::Files,
        103 => Error::Frame,
        104 => Error::Player,
        105 => Error::NotOn,
        other => Error::Unknown(other),
    }
}

/// What a call puts into a room, which is made larger where it is too small.
fn with_room<T: Clone + Default>(mut call: impl FnMut(&mut [T], &mut u64, &mut Fault) -> i32) -> Result<Vec<T>, Error> {
    let (mut room, mut written, mut fault) = (vec![T::default(); 4096], 0, Fault::default());
    loop {
        match call(&mut room, &mut written, &mut fault) {
            0 => {
                room.truncate(written as usize);
                return Ok(room);
            }
            NO_ROOM => room.resize(written as usize, T::default()),
            status => return Err(refused(status, &fault)),
        }
    }
}

/// Whether the library that runs has the calls that are declared here: version 1, from the second number 2 on.
pub fn fits() -> bool {
    let version = unsafe { simcore_version() };
    version >> 16 == 1 && version & 0xffff >= 2
}

/// A match: the bytes of its file, and its numbers.
#[derive(Clone, Debug)]
pub struct Match {
    game: Vec<u8>,
    pub facts: Facts,
}

impl Match {
    /// The match that bytes are.
    pub fn new(game: Vec<u8>) -> Result<Match, Error> {
        let (mut facts, mut fault) = (Facts::default(), Fault::default());
        match unsafe { simcore_match(game.as_ptr(), game.len(), &mut facts, &mut fault) } {
            0 => Ok(Match { game, facts }),
            status => Err(refused(status, &fault)),
        }
    }

    /// The state in which the match begins.
    pub fn first(&self) -> Result<State, Error> {
        let mut digest = [0; 16];
        let bytes = with_room(|room: &mut [u8], written, fault| unsafe {
            simcore_first(self.game.as_ptr(), self.game.len(), room.as_mut_ptr(), room.len(), written, &mut digest, fault)
        })?;
        Ok(State { bytes, digest })
    }

    /// The state behind a turn with these commands, a list in JSON.
    pub fn turn(&self, old: &[u8], commands: &str) -> Result<State, Error> {
        let mut digest = [0; 16];
        let bytes = with_room(|room: &mut [u8], written, fault| unsafe {
            simcore_turn(
                self.game.as_ptr(),
                self.game.len(),
                old.as_ptr(),
                old.len(),
                commands.as_ptr(),
                commands.len(),
                room.as_mut_ptr(),
                room.len(),
                written,
                &mut digest,
                fault,
            )
        })?;
        Ok(State { bytes, digest })
    }

    /// The digest and the turn of the state that bytes stand for.
    pub fn digest(&self, state: &[u8]) -> Result<([u8; 16], u32), Error> {
        let (mut digest, mut turn, mut fault) = ([0; 16], 0, Fault::default());
        match unsafe { simcore_digest(self.game.as_ptr(), self.game.len(), state.as_ptr(), state.len(), &mut digest, &mut turn, &mut fault) } {
            0 => Ok((digest, turn)),
            status => Err(refused(status, &fault)),
        }
    }

    /// Where two states differ: the entity and the number of the part.
    pub fn compare(&self, left: &[u8], right: &[u8]) -> Result<Option<(u32, u32)>, Error> {
        let (mut entity, mut part, mut fault) = (0, 0, Fault::default());
        let status = unsafe {
            simcore_compare(self.game.as_ptr(), self.game.len(), left.as_ptr(), left.len(), right.as_ptr(), right.len(), &mut entity, &mut part, &mut fault)
        };
        match status {
            0 => Ok(None),
            DIFFERS => Ok(Some((entity, part))),
            status => Err(refused(status, &fault)),
        }
    }

    /// The entities of a state.
    pub fn entities(&self, state: &[u8]) -> Result<Vec<Entity>, Error> {
        with_room(|rows: &mut [Entity], written, fault| unsafe {
            simcore_entities(self.game.as_ptr(), self.game.len(), state.as_ptr(), state.len(), rows.as_mut_ptr(), rows.len(), written, fault)
        })
    }

    /// The text of a state.
    pub fn show(&self, state: &[u8]) -> Result<String, Error> {
        let text = with_room(|room: &mut [u8], written, fault| unsafe {
            simcore_show(self.game.as_ptr(), self.game.len(), state.as_ptr(), state.len(), room.as_mut_ptr(), room.len(), written, fault)
        })?;
        Ok(String::from_utf8_lossy(&text).into_owned())
    }
}
