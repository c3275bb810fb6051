//! The calls of n2kdec.h.
use crate::{Counts, Error, Settings};
use std::cell::UnsafeCell;
use std::ffi::CStr;
use std::os::raw::{c_char, c_void};
use std::ptr;

const ROOM: i32 = 1;

/// `struct n2k_decoder`: zeros before it is opened.
#[repr(C)]
pub struct Handle {
    live: bool,
    hold: *mut c_void,
}

/// A handle that calls write to. It isn't `Sync`, so calls come one at a time, but from any thread.
pub struct Decoder(UnsafeCell<Handle>);

// SAFETY: n2kdec.h allows calls from any thread, and the library's proof shows that a handle is `Send`.
unsafe impl Send for Decoder {}

/// `struct n2k_settings`.
#[repr(C)]
#[derive(Default)]
pub struct RawSettings {
    window: u32,
    in_order: bool,
    empty: bool,
    whole: bool,
    encode: u8,
    reserved: [u8; 24],
}

impl RawSettings {
    /// Those of an encoder.
    pub fn encoding(nearest: bool) -> Self {
        RawSettings { encode: 1 + u8::from(nearest), ..RawSettings::default() }
    }
}

impl From<Settings> for RawSettings {
    fn from(Settings { window, in_order, empty, whole }: Settings) -> Self {
        RawSettings { window, in_order, empty, whole, ..RawSettings::default() }
    }
}

#[repr(C)]
#[derive(Default)]
struct Counted {
    lines: u64,
    messages: u64,
    bad: u64,
    unknown: u64,
    broken: u64,
    open: u64,
    reserved: [u64; 2],
}

/// A call that moves bytes into a room.
pub type Take = unsafe extern "C" fn(*mut Handle, *mut u8, usize, *mut usize) -> i32;

extern "C" {
    fn n2k_open(table: *const u8, table_size: usize, resumes: bool, state: *const u8, state_size: usize, settings: *const RawSettings, decoder: *mut Handle) -> i32;
    fn n2k_open_sharing(other: *mut Handle, resumes: bool, state: *const u8, state_size: usize, settings: *const RawSettings, decoder: *mut Handle) -> i32;
    fn n2k_feed(decoder: *mut Handle, bytes: *const u8, size: usize) -> i32;
    fn n2k_frame(decoder: *mut Handle, identifier: u32, data: *const u8, size: usize, seconds: u64, nanoseconds: u32) -> i32;
    fn n2k_table(size: *mut usize) -> *const u8;
    fn n2k_end(decoder: *mut Handle) -> i32;
    pub fn n2k_take(decoder: *mut Handle, room: *mut u8, room_size: usize, size: *mut usize) -> i32;
    fn n2k_next(decoder: *mut Handle, room: *mut u8, room_size: usize, size: *mut usize) -> i32;
    pub fn n2k_take_reports(decoder: *mut Handle, room: *mut u8, room_size: usize, size: *mut usize) -> i32;
    pub fn n2k_save(decoder: *mut Handle, room: *mut u8, room_size: usize, size: *mut usize) -> i32;
    fn n2k_counts(decoder: *mut Handle, counted: *mut Counted) -> i32;
    fn n2k_waiting(decoder: *mut Handle, size: *mut usize) -> i32;
    fn n2k_close(decoder: *mut Handle);
    fn n2k_status_text(status: i32) -> *const c_char;
}

/// The table that the library contains.
pub fn own_table() -> &'static [u8] {
    let mut size = 0;
    // SAFETY: the library's table has so many bytes, which never change.
    unsafe {
        let table = n2k_table(&mut size);
        std::slice::from_raw_parts(table, size)
    }
}

fn answer(status: i32) -> Result<(), Error> {
    if status == 0 {
        return Ok(());
    }
    // SAFETY: each status has a constant text.
    let text = unsafe { CStr::from_ptr(n2k_status_text(status)) };
    Err(Error::Refused(status, text.to_string_lossy().into_owned()))
}

impl Default for Decoder {
    fn default() -> Self {
        Decoder(UnsafeCell::new(Handle { live: false, hold: ptr::null_mut() }))
    }
}

impl Drop for Decoder {
    fn drop(&mut self) {
        // SAFETY: it is zeros, or was opened; it is not used again.
        unsafe { n2k_close(self.0.get()) }
    }
}

// SAFETY, of each call below: the handle is zeros or was opened by n2k_open, and was not copied; no other call has it; each
// pointer is that of a slice with its length, and nothing that is written overlaps anything else.
impl Decoder {
    pub fn open(&mut self, table: &[u8], state: Option<&[u8]>, settings: &RawSettings) -> Result<(), Error> {
        let bytes = state.unwrap_or_default();
        answer(unsafe { n2k_open(table.as_ptr(), table.len(), state.is_some(), bytes.as_ptr(), bytes.len(), settings, self.0.get()) })
    }

    /// Opens it with the table of another one.
    pub fn open_sharing(&mut self, other: &mut Decoder, state: Option<&[u8]>, settings: &RawSettings) -> Result<(), Error> {
        let bytes = state.unwrap_or_default();
        answer(unsafe { n2k_open_sharing(other.0.get(), state.is_some(), bytes.as_ptr(), bytes.len(), settings, self.0.get()) })
    }

    pub fn feed(&mut self, bytes: &[u8]) -> Result<(), Error> {
        answer(unsafe { n2k_feed(self.0.get(), bytes.as_ptr(), bytes.len()) })
    }

    pub fn end(&mut self) -> Result<(), Error> {
        answer(unsafe { n2k_end(self.0.get()) })
    }

    pub fn frame(&mut self, identifier: u32, data: &[u8], seconds: u64, nanoseconds: u32) -> Result<(), Error> {
        answer(unsafe { n2k_frame(self.0.get(), identifier, data.as_ptr(), data.len(), seconds, nanoseconds) })
    }

    /// Fills a room, which grows if it is too small, and returns the number of bytes.
    fn fill(&self, call: Take, room: &mut Vec<u8>) -> Result<usize, Error> {
        let mut size = 0;
        let mut status = unsafe { call(self.0.get(), room.as_mut_ptr(), room.len(), &mut size) };
        if status == ROOM {
            room.resize(size, 0);
            status = unsafe { call(self.0.get(), room.as_mut_ptr(), room.len(), &mut size) };
        }
        answer(status)?;
        Ok(size)
    }

    pub fn bytes(&self, call: Take) -> Result<Vec<u8>, Error> {
        let mut room = vec![0; 1 << 16];
        let size = self.fill(call, &mut room)?;
        room.truncate(size);
        Ok(room)
    }

    /// The next message that waits, without its line feed.
    pub fn next(&self, room: &mut Vec<u8>) -> Result<Option<String>, Error> {
        let size = self.fill(n2k_next, room)?;
        Ok((size > 0).then(|| String::from_utf8_lossy(&room[..size]).trim_end_matches('\n').to_owned()))
    }

    /// The lines that a call gives: JSON and reports are UTF-8.
    pub fn take(&self, call: Take) -> Result<Vec<String>, Error> {
        let bytes = self.bytes(call)?;
        Ok(String::from_utf8_lossy(&bytes).split_terminator('\n').map(str::to_owned).collect())
    }

    pub fn counts(&self) -> Result<Counts, Error> {
        let mut it = Counted::default();
        answer(unsafe { n2k_counts(self.0.get(), &mut it) })?;
        let Counted { lines, messages, bad, unknown, broken, open, .. } = it;
        Ok(Counts { lines, messages, bad, unknown, broken, open })
    }

    pub fn waiting(&self) -> Result<usize, Error> {
        let mut size = 0;
        answer(unsafe { n2k_waiting(self.0.get(), &mut size) })?;
        Ok(size)
    }
}
