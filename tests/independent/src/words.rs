//! Words in bytes (01, "Groups and registers" and "Writer and replay").

/// The four bytes at an offset, if they all lie in `bytes`.
fn four(bytes: &[u8], at: usize) -> Option<[u8; 4]> {
    bytes.get(at..at.checked_add(4)?)?.try_into().ok()
}

/// The word at an offset, low byte first.
pub fn read_le32(bytes: &[u8], at: usize) -> Option<u32> {
    four(bytes, at).map(u32::from_le_bytes)
}

/// The word at an offset, high byte first.
pub fn read_be32(bytes: &[u8], at: usize) -> Option<u32> {
    four(bytes, at).map(u32::from_be_bytes)
}

/// Words as bytes, low byte first.
pub fn bytes(words: &[u32]) -> Vec<u8> {
    words.iter().flat_map(|word| word.to_le_bytes()).collect()
}

/// The bytes with others in the place of those from an offset on, if those all lie in them.
pub fn replaced(bytes: &[u8], at: usize, by: &[u8]) -> Option<Vec<u8>> {
    let mut after = bytes.to_vec();
    after.get_mut(at..at.checked_add(by.len())?)?.copy_from_slice(by);
    Some(after)
}

#[cfg(test)]
mod tests {
    use super::*;

    #[test]
    fn both_orders() {
        assert_eq!(read_le32(&[9, 1, 2, 3, 4], 1), Some(0x04030201));
        assert_eq!(read_be32(&[9, 1, 2, 3, 4], 1), Some(0x01020304));
        assert_eq!(read_le32(&[1, 2, 3, 4], 1), None);
        assert_eq!(read_le32(&[1, 2, 3, 4], usize::MAX), None);
        assert_eq!(replaced(&[1, 2, 3], 1, &[7, 8]), Some(vec![1, 7, 8]));
        assert_eq!(replaced(&[1, 2, 3], 2, &[7, 8]), None);
    }
}
