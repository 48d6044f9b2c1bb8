//! What a host has of the port: three functions over byte slices, each passed as a pointer and a length. Of a slice they ask that it is
//! valid for that long, and that a slice which is written overlaps no other; a Rust slice is so by its type.

#[link(name = "vp8_state", kind = "static")]
extern "C" {
    fn vp8_state_read(block: *const u8, length: usize, bytes: *mut u8, size: usize) -> u32;
    fn vp8_state_write(bytes: *const u8, size: usize, block: *mut u8, length: usize) -> u32;
    fn vp8_state_parse(mode: u32, block: *mut u8, length: usize, frame: *const u8, size: usize) -> u32;
}

/// The bytes of a flat record, and of a block.
pub const RECORD: usize = 1126;
pub const BLOCK: usize = 1148;

/// The record of a block into 1,126 bytes.
pub fn read(block: &[u8], record: &mut [u8]) -> u32 {
    // SAFETY: two Rust slices, of which the one that is written is borrowed alone.
    unsafe { vp8_state_read(block.as_ptr(), block.len(), record.as_mut_ptr(), record.len()) }
}

/// The record of 1,126 bytes into a block.
pub fn write(record: &[u8], block: &mut [u8]) -> u32 {
    // SAFETY: as above.
    unsafe { vp8_state_write(record.as_ptr(), record.len(), block.as_mut_ptr(), block.len()) }
}

/// One call over the record of a block. The mode 0 is the Rust's, any other the standard's.
pub fn parse(mode: u32, block: &mut [u8], frame: &[u8]) -> u32 {
    // SAFETY: as above.
    unsafe { vp8_state_parse(mode, block.as_mut_ptr(), block.len(), frame.as_ptr(), frame.len()) }
}
