//! A client and a server of a networked match. What they say are frames, which the host carries.

use crate::held::{counted, stepped, Held};
use crate::raw::*;
use crate::{with_room, Error};
use std::ops::Deref;

/// The frames that bytes are, each whole.
pub fn frames(mut bytes: &[u8]) -> impl Iterator<Item = &[u8]> {
    std::iter::from_fn(move || {
        let length = 4 + u32::from_le_bytes(bytes.first_chunk().copied()?) as usize;
        let (frame, rest) = bytes.split_at_checked(length)?;
        bytes = rest;
        Some(frame)
    })
}

/// A client of a match for one of its players. After `OutOfMemory` of a step it is off, as after `cut`.
pub struct Client(Held);

/// The server of a match. After `OutOfMemory` it is as it was.
pub struct Server(Held);

impl Deref for Client {
    type Target = Held;

    fn deref(&self) -> &Held {
        &self.0
    }
}

impl Client {
    /// The client for a player; one that begins is on at the first state, and any other is off.
    pub fn open(game: &[u8], player: u32, begins: bool) -> Result<Client, Error> {
        Held::open(|at, fault| unsafe { simcore_client_open(at, game.as_ptr(), game.len(), player, begins.into(), fault) }).map(Client)
    }

    /// Wishes to join.
    pub fn join(&mut self) -> Result<bool, Error> {
        stepped(unsafe { simcore_client_join(self.at()) })
    }

    /// Orders, in JSON without the player, for the turn behind `standing().done`.
    pub fn order(&mut self, command: &str) -> Result<bool, Error> {
        stepped(unsafe { simcore_client_order(self.at(), command.as_ptr(), command.len()) })
    }

    /// Hears a frame of the server.
    pub fn hear(&mut self, frame: &[u8]) -> Result<bool, Error> {
        stepped(unsafe { simcore_client_hear(self.at(), frame.as_ptr(), frame.len()) })
    }

    /// Plays the turns that are released, at most so many; how many these were.
    pub fn play(&mut self, most: u32) -> Result<u32, Error> {
        counted(|played| unsafe { simcore_client_play(self.at(), most, played) })
    }

    /// Its connection has ended.
    pub fn cut(&mut self) {
        unsafe { simcore_client_cut(self.at()) };
    }

    /// Takes the frames that wait to be sent.
    pub fn take(&mut self) -> Result<Vec<u8>, Error> {
        with_room(|room: &mut [u8], written, _| unsafe { simcore_client_take(self.at(), room.as_mut_ptr(), room.len(), written) })
    }

    /// Where it stands.
    pub fn standing(&self) -> Standing {
        let mut standing = Standing::default();
        unsafe { simcore_client_standing(self.at(), &mut standing) };
        standing
    }
}

impl Server {
    /// The server of a match, in which the first so many clients begin.
    pub fn open(game: &[u8], active: u32) -> Result<Server, Error> {
        Held::open(|at, fault| unsafe { simcore_server_open(at, game.as_ptr(), game.len(), active, fault) }).map(Server)
    }

    /// Hears a frame of a client. After `Error::Frame` the client was cut off.
    pub fn hear(&mut self, from: u32, frame: &[u8]) -> Result<bool, Error> {
        stepped(unsafe { simcore_server_hear(self.0.at(), from, frame.as_ptr(), frame.len()) })
    }

    /// The connection of a client has ended.
    pub fn cut(&mut self, client: u32) -> Result<bool, Error> {
        stepped(unsafe { simcore_server_cut(self.0.at(), client) })
    }

    /// Takes the frames that wait for a client.
    pub fn take(&mut self, client: u32) -> Result<Vec<u8>, Error> {
        with_room(|room: &mut [u8], written, _| unsafe { simcore_server_take(self.0.at(), client, room.as_mut_ptr(), room.len(), written) })
    }

    /// The last turn that is released.
    pub fn released(&self) -> u32 {
        let mut turn = 0;
        unsafe { simcore_server_released(self.0.at(), &mut turn) };
        turn
    }
}
