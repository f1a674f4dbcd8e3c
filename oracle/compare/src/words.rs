//! Words in byte slices: four bytes to a word, little-endian, a float as its bits.

pub fn word(bytes: &[u8], i: usize) -> u32 {
    u32::from_le_bytes(bytes[4 * i..4 * i + 4].try_into().unwrap())
}

pub fn put(bytes: &mut [u8], words: &[u32]) {
    for (place, word) in bytes.chunks_exact_mut(4).zip(words) {
        place.copy_from_slice(&word.to_le_bytes());
    }
}

pub fn bytes(words: &[u32]) -> Vec<u8> {
    words.iter().flat_map(|word| word.to_le_bytes()).collect()
}

/// The whole words of `bytes`.
pub fn all(bytes: &[u8]) -> Vec<u32> {
    (0..bytes.len() / 4).map(|i| word(bytes, i)).collect()
}

pub fn bits(floats: &[f32]) -> Vec<u32> {
    floats.iter().map(|x| x.to_bits()).collect()
}

/// Whether words are the same: bit for bit, or else as floats too.
pub fn same(have: u32, want: u32, by_bits: bool) -> bool {
    let (h, w) = (f32::from_bits(have), f32::from_bits(want));
    have == want || (!by_bits && (h == w || (h.is_nan() && w.is_nan())))
}

/// A word for a message: as bits and as a float.
pub fn show(word: u32) -> String {
    format!("{word:08x} ({:e})", f32::from_bits(word))
}

pub fn show_all(words: &[u32]) -> String {
    let shown: Vec<String> = words.iter().map(|&w| show(w)).collect();
    shown.join(", ")
}
