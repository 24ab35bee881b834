//! Bytes spelled out.

/// Bytes in hex, BYTE*N for a byte N times.
pub fn bytes(text: &str) -> Vec<u8> {
    let run = |word: &str| {
        let (byte, times) = word.split_once('*').unwrap_or((word, "1"));
        let byte = u8::from_str_radix(byte, 16).expect("hex bytes");
        vec![byte; times.parse().expect("how often")]
    };
    text.split_whitespace().flat_map(run).collect()
}
