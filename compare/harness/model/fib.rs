//! The CRC of a FIB by polynomial division, and the two tests as document 01 has them.

/// The word that the standard sends behind `data`: x^16 + x^12 + x^5 + 1, all ones at the start,
/// complemented.
pub fn crc_word(data: impl IntoIterator<Item = bool>) -> u16 {
    let step = |word: u16, bit: bool| {
        let out = word >> 15 == 1;
        (word << 1) ^ if out != bit { 0x1021 } else { 0 }
    };
    !data.into_iter().fold(0xFFFF, step)
}

/// The bits of bytes, high bit first.
pub fn bits_of(bytes: &[u8]) -> Vec<u8> {
    bytes.iter().flat_map(|b| (0..8).map(move |i| b >> (7 - i) & 1)).collect()
}

/// Bytes of bits, high bit first.
pub fn packed(bits: &[u8]) -> Vec<u8> {
    bits.chunks(8).map(|eight| eight.iter().fold(0, |byte, bit| byte << 1 | bit)).collect()
}

/// Data with its CRC behind it.
pub fn with_crc(data: &[u8]) -> Vec<u8> {
    let word = crc_word(bits_of(data).into_iter().map(|b| b == 1));
    [data, &word.to_be_bytes()].concat()
}

/// Yes to 256 zeros and ones whose last sixteen are the CRC word of the others; no to all else.
pub fn bit_test(bits: &[u8]) -> bool {
    if bits.len() != 256 || bits.iter().any(|b| *b > 1) {
        return false;
    }
    let sent = bits[240..].iter().fold(0, |word, b| word << 1 | u16::from(*b));
    crc_word(bits[..240].iter().map(|b| *b == 1)) == sent
}

/// Yes to 32 bytes or more whose first 32 are data and CRC word.
pub fn byte_test(fib: &[u8]) -> bool {
    fib.len() >= 32 && bit_test(&bits_of(&fib[..32]))
}
