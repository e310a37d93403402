//! The proved library, as `crates/wire_c` offers it to C. A slice is passed as its place and its length.

unsafe extern "C" {
    fn wire_meta_shown(bytes: *const u8, len: usize, to: *mut u8, room: usize) -> usize;
    fn wire_meta_respelled(bytes: *const u8, len: usize, to: *mut u8, room: usize) -> usize;
    fn wire_meta_reads(bytes: *const u8, len: usize, times: u32) -> u32;
    fn wire_meta_writes(bytes: *const u8, len: usize, times: u32) -> u32;
    fn wire_frames_taken(stream: *const u8, len: usize, piece: u32) -> u64;
}

type Fills = unsafe extern "C" fn(*const u8, usize, *mut u8, usize) -> usize;

fn filled(fills: Fills, bytes: &[u8]) -> Vec<u8> {
    let mut to = vec![0; 65_536];
    let count = unsafe { fills(bytes.as_ptr(), bytes.len(), to.as_mut_ptr(), to.len()) };
    to.truncate(count);
    to
}

/// The meta as text for a programmer; empty where the bytes are none.
pub fn meta_shown(bytes: &[u8]) -> String {
    String::from_utf8(filled(wire_meta_shown, bytes)).expect("text")
}

/// The meta read and written again; empty where the bytes are none.
pub fn meta_respelled(bytes: &[u8]) -> Vec<u8> {
    filled(wire_meta_respelled, bytes)
}

/// Reads the meta so many times, and answers how often that went well.
pub fn meta_reads(bytes: &[u8], times: u32) -> u32 {
    unsafe { wire_meta_reads(bytes.as_ptr(), bytes.len(), times) }
}

/// Writes the meta so many times, and answers how often that went well.
pub fn meta_writes(bytes: &[u8], times: u32) -> u32 {
    unsafe { wire_meta_writes(bytes.as_ptr(), bytes.len(), times) }
}

/// Feeds a stream in pieces of so many bytes, takes each frame as it comes, and answers how many came.
pub fn frames_taken(stream: &[u8], piece: u32) -> u64 {
    unsafe { wire_frames_taken(stream.as_ptr(), stream.len(), piece) }
}
