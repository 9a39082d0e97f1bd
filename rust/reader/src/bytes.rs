//! Little-endian numbers in bytes. All of them expect the number to lie inside.

/// The unsigned 16-bit number at `at`.
pub(crate) fn u16_at(bytes: &[u8], at: usize) -> u16 {
    u16::from_le_bytes([bytes[at], bytes[at + 1]])
}

/// The signed 16-bit number at `at`.
pub(crate) fn i16_at(bytes: &[u8], at: usize) -> i16 {
    i16::from_le_bytes([bytes[at], bytes[at + 1]])
}

/// The unsigned 32-bit number at `at`.
pub(crate) fn u32_at(bytes: &[u8], at: usize) -> u32 {
    u32::from_le_bytes([bytes[at], bytes[at + 1], bytes[at + 2], bytes[at + 3]])
}

/// The signed 32-bit number at `at`, widened so that sums fit.
pub(crate) fn i32_at(bytes: &[u8], at: usize) -> i64 {
    i64::from(u32_at(bytes, at) as i32)
}
