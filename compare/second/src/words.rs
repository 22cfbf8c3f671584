//! Words: two bytes, high byte first.

/// The default value, which an absent message counts as.
pub const DEFAULT: u16 = 0;

/// In a decision row: "not reported".
pub const NOT_REPORTED: u16 = 65_535;

/// 65,001 to 65,535 are reserved.
pub fn reserved(word: u16) -> bool {
    word > 65_000
}

/// A word met in a table or a vote: a reserved one counts as the default.
pub fn met(word: u16) -> u16 {
    if reserved(word) {
        DEFAULT
    } else {
        word
    }
}

/// The words that stand in `bytes`, which has an even length.
pub fn of_bytes(bytes: &[u8]) -> Vec<u16> {
    bytes.chunks_exact(2).map(|pair| u16::from_be_bytes([pair[0], pair[1]])).collect()
}

/// The bytes of `words`.
pub fn to_bytes(words: &[u16]) -> Vec<u8> {
    words.iter().flat_map(|word| word.to_be_bytes()).collect()
}
