//! Batches in the ring (01, "Engine, desks, queue"): byte i of a batch is ring byte (offset + i) modulo the ring's length.

/// Whether a batch starts at one of the ring's bytes and is no longer than the ring.
fn lies(ring: &[u8], offset: u64, size: u64) -> bool {
    let length = ring.len() as u64;
    offset < length && size <= length
}

/// The ring's index of byte i of a batch.
fn index(ring: &[u8], offset: u64, i: usize) -> usize {
    ((offset + i as u64) % ring.len() as u64) as usize
}

/// The bytes of a batch in order, if it lies in the ring.
pub fn batch(ring: &[u8], offset: u64, size: u64) -> Option<Vec<u8>> {
    lies(ring, offset, size).then(|| (0..size as usize).map(|i| ring[index(ring, offset, i)]).collect())
}

/// The words of a batch: none if it does not lie in the ring. Bytes left over at its end are no word.
pub fn words(ring: &[u8], offset: u64, size: u64) -> Vec<u32> {
    let bytes = batch(ring, offset, size).unwrap_or_default();
    bytes.chunks_exact(4).map(|four| u32::from_le_bytes([four[0], four[1], four[2], four[3]])).collect()
}

/// The ring after a batch was copied in, if there is room for it.
pub fn copied(ring: &[u8], offset: u64, batch: &[u8]) -> Option<Vec<u8>> {
    if !lies(ring, offset, batch.len() as u64) {
        return None;
    }
    let mut after = ring.to_vec();
    for (i, byte) in batch.iter().enumerate() {
        after[index(ring, offset, i)] = *byte;
    }
    Some(after)
}

#[cfg(test)]
mod tests {
    use super::*;

    /// R1 of 01: ring 128, offset 120, length 24: bytes 120 to 127, 0 to 15.
    #[test]
    fn wraps() {
        let ring: Vec<u8> = (0..128).collect();
        let expected: Vec<u8> = (120..128).chain(0..16).collect();
        assert_eq!(batch(&ring, 120, 24), Some(expected.clone()));
        let after = copied(&[255; 128], 120, &expected).unwrap();
        assert!((0..128).all(|i| after[i] == if (16..120).contains(&i) { 255 } else { i as u8 }));
    }

    #[test]
    fn outside() {
        assert_eq!(batch(&[0; 8], 8, 0), None);
        assert_eq!(batch(&[0; 8], 0, 9), None);
        assert_eq!(words(&[1, 0, 0, 0, 2], 0, 5), vec![1]);
    }
}
