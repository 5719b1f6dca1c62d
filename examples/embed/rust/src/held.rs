//! What is held from call to call, and a match that is played on so. Each value owns its handle and closes it when it is dropped. It may go
//! to another thread, but two threads can't have it at once: it is `Send`, and not `Sync`.

use crate::raw::*;
use crate::{refused, with_room, Error, State};
use std::cell::UnsafeCell;
use std::ops::Deref;

pub(crate) const OK: i32 = 0;
const IDLE: i32 = 102;

/// A handle that is open, with the looks that are alike for all: of a client and a game at their state. A server has none.
///
/// The cell is what makes it not `Sync`, so a look through `&self` is the only call that has the handle.
pub struct Held {
    handle: UnsafeCell<RawHandle>,
}

// What is held is memory of the heap alone, which any thread may use and give back, one at a time.
unsafe impl Send for Held {}

/// Whether a step did something.
pub(crate) fn stepped(status: i32) -> Result<bool, Error> {
    match status {
        OK => Ok(true),
        IDLE => Ok(false),
        status => Err(refused(status, &Fault::default())),
    }
}

/// How many turns a step played.
pub(crate) fn counted(call: impl FnOnce(&mut u32) -> i32) -> Result<u32, Error> {
    let mut played = 0;
    Ok(if stepped(call(&mut played))? { played } else { 0 })
}

impl Held {
    pub(crate) fn open(call: impl FnOnce(*mut RawHandle, &mut Fault) -> i32) -> Result<Held, Error> {
        let (handle, mut fault) = (UnsafeCell::new(RawHandle { held: std::ptr::null_mut() }), Fault::default());
        match call(handle.get(), &mut fault) {
            OK => Ok(Held { handle }),
            status => Err(refused(status, &fault)),
        }
    }

    pub(crate) fn at(&self) -> *mut RawHandle {
        self.handle.get()
    }

    /// The state and its digest.
    pub fn state(&self) -> Result<State, Error> {
        let mut digest = [0; 16];
        let bytes = with_room(|room: &mut [u8], written, _| unsafe { simcore_held_state(self.at(), room.as_mut_ptr(), room.len(), written, &mut digest) })?;
        Ok(State { bytes, digest })
    }

    /// The digest of the state and its turn.
    pub fn digest(&self) -> Result<([u8; 16], u32), Error> {
        let (mut digest, mut turn) = ([0; 16], 0);
        stepped(unsafe { simcore_held_digest(self.at(), &mut digest, &mut turn) }).map(|_| (digest, turn))
    }

    /// The entities of the state.
    pub fn entities(&self) -> Result<Vec<Entity>, Error> {
        with_room(|rows: &mut [Entity], written, _| unsafe { simcore_held_entities(self.at(), rows.as_mut_ptr(), rows.len(), written) })
    }

    /// The text of the state.
    pub fn show(&self) -> Result<String, Error> {
        let text = with_room(|room: &mut [u8], written, _| unsafe { simcore_held_show(self.at(), room.as_mut_ptr(), room.len(), written) })?;
        Ok(String::from_utf8_lossy(&text).into_owned())
    }
}

impl Drop for Held {
    fn drop(&mut self) {
        unsafe { simcore_close(self.at()) };
    }
}

/// A match that is played on in memory. After an error it is as it was.
pub struct Game(Held);

impl Deref for Game {
    type Target = Held;

    fn deref(&self) -> &Held {
        &self.0
    }
}

impl Game {
    /// A match at its first state.
    pub fn open(game: &[u8]) -> Result<Game, Error> {
        Held::open(|at, fault| unsafe { simcore_game_open(at, game.as_ptr(), game.len(), fault) }).map(Game)
    }

    /// A match at the state that bytes stand for.
    pub fn load(game: &[u8], state: &[u8]) -> Result<Game, Error> {
        Held::open(|at, fault| unsafe { simcore_game_load(at, game.as_ptr(), game.len(), state.as_ptr(), state.len(), fault) }).map(Game)
    }

    /// Plays a turn with these commands, a list in JSON.
    pub fn play(&mut self, commands: &str) -> Result<(), Error> {
        let mut fault = Fault::default();
        match unsafe { simcore_game_play(self.at(), commands.as_ptr(), commands.len(), &mut fault) } {
            OK => Ok(()),
            status => Err(refused(status, &fault)),
        }
    }

    /// Plays turns with the commands of the match file, at most so many; how many these were.
    pub fn play_own(&mut self, most: u32) -> Result<u32, Error> {
        counted(|played| unsafe { simcore_game_play_own(self.at(), most, played) })
    }
}
