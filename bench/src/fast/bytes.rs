//! Little-endian numbers at places in bytes.

/// The bytes at a place, so many as the array has.
#[inline(always)]
fn at<const N: usize>(bytes: &[u8], place: usize) -> [u8; N] {
    bytes[place..place + N].try_into().expect("a part of this length")
}

#[inline(always)]
pub fn get_u16(bytes: &[u8], place: usize) -> u16 {
    u16::from_le_bytes(at(bytes, place))
}

#[inline(always)]
pub fn get_u32(bytes: &[u8], place: usize) -> u32 {
    u32::from_le_bytes(at(bytes, place))
}

#[inline(always)]
pub fn get_u64(bytes: &[u8], place: usize) -> u64 {
    u64::from_le_bytes(at(bytes, place))
}

#[inline(always)]
pub fn put_u16(bytes: &mut [u8], place: usize, x: u16) {
    bytes[place..place + 2].copy_from_slice(&x.to_le_bytes());
}

#[inline(always)]
pub fn put_u32(bytes: &mut [u8], place: usize, x: u32) {
    bytes[place..place + 4].copy_from_slice(&x.to_le_bytes());
}

#[inline(always)]
pub fn put_u64(bytes: &mut [u8], place: usize, x: u64) {
    bytes[place..place + 8].copy_from_slice(&x.to_le_bytes());
}

/// Bytes that are looked at together, as vectors.
const WIDE: usize = 32;

/// The bits of some bytes joined, as four numbers.
#[inline(always)]
fn joined(seen: [u64; 4], bytes: &[u8; WIDE]) -> [u64; 4] {
    std::array::from_fn(|i| seen[i] | get_u64(bytes, 8 * i))
}

/// Whether every byte is 0. Many at a time; what is left over is looked at as part of the last ones.
#[inline(always)]
pub fn all_zero(bytes: &[u8]) -> bool {
    if let Some(last) = bytes.last_chunk() {
        return bytes.as_chunks().0.iter().fold(joined([0; 4], last), joined) == [0; 4];
    }
    match bytes.last_chunk() {
        Some(last) => bytes.as_chunks().0.iter().fold(u64::from_le_bytes(*last), |seen, eight| seen | u64::from_le_bytes(*eight)) == 0,
        None => bytes.iter().all(|&byte| byte == 0),
    }
}
