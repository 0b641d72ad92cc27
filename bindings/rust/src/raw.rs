//! The calls that `include/kaltewi.h` declares.

/// What is open, or nothing.
#[repr(C)]
pub struct Handle {
    pub is_open: bool,
    pub at: *mut u8,
}

impl Handle {
    /// A handle that is closed, as the header asks.
    pub const fn closed() -> Handle {
        Handle { is_open: false, at: std::ptr::null_mut() }
    }
}

extern "C" {
    pub fn kw_core_open(core: &mut Handle) -> u32;
    pub fn kw_core_line(core: &mut Handle, line: *const u8, line_len: usize) -> u32;
    pub fn kw_core_text(core: &mut Handle, out: *mut u8, room: usize, len: &mut usize) -> u32;
    pub fn kw_core_close(core: &mut Handle);

    pub fn kw_client_open(client: &mut Handle, rings: *const usize, seats: usize) -> u32;
    pub fn kw_client_close(client: &mut Handle);
    pub fn kw_client_error(client: &mut Handle, code: &mut u32, out: *mut u8, room: usize, len: &mut usize) -> u32;
    pub fn kw_client_listen(
        client: &mut Handle,
        seat: u64,
        path: *const u8,
        path_len: usize,
        query: *const u8,
        query_len: usize,
        listener: &mut u64,
    ) -> u32;
    pub fn kw_client_unlisten(client: &mut Handle, seat: u64, listener: u64) -> u32;
    pub fn kw_client_want(client: &mut Handle, seat: u64, listener: u64, kinds: u32) -> u32;
    pub fn kw_client_set(
        client: &mut Handle,
        seat: u64,
        path: *const u8,
        path_len: usize,
        tree: *const u8,
        tree_len: usize,
        request: &mut u64,
    ) -> u32;
    pub fn kw_client_update(client: &mut Handle, seat: u64, entries: *const u8, entries_len: usize, request: &mut u64) -> u32;
    pub fn kw_client_remove(client: &mut Handle, seat: u64, path: *const u8, path_len: usize, request: &mut u64) -> u32;
    pub fn kw_client_on_disconnect(
        client: &mut Handle,
        seat: u64,
        path: *const u8,
        path_len: usize,
        tree: *const u8,
        tree_len: usize,
        request: &mut u64,
    ) -> u32;
    pub fn kw_client_on_disconnect_update(
        client: &mut Handle,
        seat: u64,
        entries: *const u8,
        entries_len: usize,
        request: &mut u64,
    ) -> u32;
    pub fn kw_client_cancel_disconnect(
        client: &mut Handle,
        seat: u64,
        path: *const u8,
        path_len: usize,
        request: &mut u64,
    ) -> u32;
    pub fn kw_client_connected(client: &mut Handle) -> u32;
    pub fn kw_client_disconnected(client: &mut Handle) -> u32;
    pub fn kw_client_server_message(client: &mut Handle, message: *const u8, message_len: usize) -> u32;
    pub fn kw_client_take_outgoing(client: &mut Handle, out: *mut u8, room: usize, len: &mut usize) -> u32;
    pub fn kw_client_settle(client: &mut Handle, seat: u64) -> u32;
    pub fn kw_client_next(client: &mut Handle, seat: u64, out: *mut u8, room: usize, len: &mut usize) -> u32;
    pub fn kw_client_cover(client: &mut Handle, out: *mut u8, room: usize, len: &mut usize) -> u32;
    pub fn kw_client_push_key(
        client: &mut Handle,
        now_ms: u64,
        random: &[u8; 12],
        out: *mut u8,
        room: usize,
        len: &mut usize,
    ) -> u32;
}

pub const DONE: u32 = 0;
pub const NONE: u32 = 1;
pub const STALE: u32 = 2;
pub const TOO_SMALL: u32 = 3;
pub const NO_MEMORY: u32 = 5;
pub const FAILED: u32 = 6;
pub const BAD_TEXT: u32 = 7;
pub const WRONG_SEAT: u32 = 8;
pub const TOO_MANY_SEATS: u32 = 10;
pub const REFUSED: u32 = 11;

/// How a call ends that gives a text, and the text where it is done. A first room is tried, and then one of the length that was said.
pub fn text_by(mut call: impl FnMut(*mut u8, usize, &mut usize) -> u32) -> (u32, String) {
    let mut room = vec![0u8; 512];
    loop {
        let mut len = 0;
        match call(room.as_mut_ptr(), room.len(), &mut len) {
            DONE => {
                room.truncate(len);
                return (DONE, String::from_utf8(room).expect("what is given is UTF-8"));
            }
            TOO_SMALL => room.resize(len, 0),
            other => return (other, String::new()),
        }
    }
}
