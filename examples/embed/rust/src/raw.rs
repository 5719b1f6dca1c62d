//! What `simcore.h` declares, as it stands there: records of numbers, and calls that are for the safe ones beside them.

/// The numbers of a match.
#[repr(C)]
#[derive(Clone, Copy, Debug, Default, PartialEq, Eq)]
pub struct Facts {
    pub width: u32,
    pub depth: u32,
    pub players: u32,
    pub turns: u32,
    pub delay: u32,
    pub cap: u32,
    pub templates: u32,
    pub entities: u32,
    pub commands: u32,
}

/// An entity; a cell is 65536 wide.
#[repr(C)]
#[derive(Clone, Copy, Debug, Default, PartialEq, Eq)]
pub struct Entity {
    pub id: u32,
    pub kind: u32,
    pub owner: u32,
    pub x: i32,
    pub z: i32,
    pub health: i32,
    pub going: u32,
    pub goal_x: i32,
    pub goal_z: i32,
    pub target: u32,
    pub holds: u32,
}

/// Why a call was refused.
#[repr(C)]
#[derive(Default)]
pub struct Fault {
    pub code: u32,
    pub index: u32,
}

/// Where a client stands: `OFF`, `JOINING` or `ON`, and its turns, which are 0 where it is not on.
#[repr(C)]
#[derive(Clone, Copy, Debug, Default, PartialEq, Eq)]
pub struct Standing {
    pub stage: u32,
    pub turn: u32,
    pub released: u32,
    pub done: u32,
}

pub const OFF: u32 = 0;
pub const JOINING: u32 = 1;
pub const ON: u32 = 2;

/// What the library keeps; null where the handle is closed.
#[repr(C)]
pub struct RawHandle {
    pub held: *mut std::ffi::c_void,
}

type Bytes = *const u8;
type Raw = *mut RawHandle;

extern "C" {
    pub fn simcore_version() -> u32;
    pub fn simcore_match(game: Bytes, n: usize, facts: &mut Facts, fault: &mut Fault) -> i32;
    pub fn simcore_first(game: Bytes, n: usize, room: *mut u8, room_n: usize, written: &mut u64, digest: &mut [u8; 16], fault: &mut Fault) -> i32;
    pub fn simcore_turn(
        game: Bytes,
        n: usize,
        old: Bytes,
        old_n: usize,
        list: Bytes,
        list_n: usize,
        room: *mut u8,
        room_n: usize,
        written: &mut u64,
        digest: &mut [u8; 16],
        fault: &mut Fault,
    ) -> i32;
    pub fn simcore_digest(game: Bytes, n: usize, state: Bytes, state_n: usize, digest: &mut [u8; 16], turn: &mut u32, fault: &mut Fault) -> i32;
    pub fn simcore_compare(
        game: Bytes,
        n: usize,
        left: Bytes,
        left_n: usize,
        right: Bytes,
        right_n: usize,
        entity: &mut u32,
        part: &mut u32,
        fault: &mut Fault,
    ) -> i32;
    pub fn simcore_entities(game: Bytes, n: usize, state: Bytes, state_n: usize, rows: *mut Entity, rows_n: usize, written: &mut u64, fault: &mut Fault)
        -> i32;
    pub fn simcore_show(game: Bytes, n: usize, state: Bytes, state_n: usize, room: *mut u8, room_n: usize, written: &mut u64, fault: &mut Fault) -> i32;
    pub fn simcore_run(
        words: Bytes,
        words_n: usize,
        files: Bytes,
        files_n: usize,
        text: *mut u8,
        text_room: usize,
        text_written: &mut u64,
        out: *mut u8,
        out_room: usize,
        out_written: &mut u64,
    ) -> i32;
    pub fn simcore_client_open(handle: Raw, game: Bytes, n: usize, player: u32, begins: u32, fault: &mut Fault) -> i32;
    pub fn simcore_client_join(handle: Raw) -> i32;
    pub fn simcore_client_order(handle: Raw, command: Bytes, command_n: usize) -> i32;
    pub fn simcore_client_hear(handle: Raw, frame: Bytes, frame_n: usize) -> i32;
    pub fn simcore_client_play(handle: Raw, most: u32, played: &mut u32) -> i32;
    pub fn simcore_client_cut(handle: Raw) -> i32;
    pub fn simcore_client_take(handle: Raw, room: *mut u8, room_n: usize, written: &mut u64) -> i32;
    pub fn simcore_client_standing(handle: Raw, standing: &mut Standing) -> i32;
    pub fn simcore_server_open(handle: Raw, game: Bytes, n: usize, active: u32, fault: &mut Fault) -> i32;
    pub fn simcore_server_hear(handle: Raw, from: u32, frame: Bytes, frame_n: usize) -> i32;
    pub fn simcore_server_cut(handle: Raw, client: u32) -> i32;
    pub fn simcore_server_take(handle: Raw, client: u32, room: *mut u8, room_n: usize, written: &mut u64) -> i32;
    pub fn simcore_server_released(handle: Raw, turn: &mut u32) -> i32;
    pub fn simcore_game_open(handle: Raw, game: Bytes, n: usize, fault: &mut Fault) -> i32;
    pub fn simcore_game_load(handle: Raw, game: Bytes, n: usize, state: Bytes, state_n: usize, fault: &mut Fault) -> i32;
    pub fn simcore_game_play(handle: Raw, list: Bytes, list_n: usize, fault: &mut Fault) -> i32;
    pub fn simcore_game_play_own(handle: Raw, most: u32, played: &mut u32) -> i32;
    pub fn simcore_held_state(handle: Raw, room: *mut u8, room_n: usize, written: &mut u64, digest: &mut [u8; 16]) -> i32;
    pub fn simcore_held_digest(handle: Raw, digest: &mut [u8; 16], turn: &mut u32) -> i32;
    pub fn simcore_held_show(handle: Raw, room: *mut u8, room_n: usize, written: &mut u64) -> i32;
    pub fn simcore_held_entities(handle: Raw, rows: *mut Entity, rows_n: usize, written: &mut u64) -> i32;
    pub fn simcore_close(handle: Raw) -> i32;
}
