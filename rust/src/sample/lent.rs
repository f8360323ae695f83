//! Buffers to lend and texts to show.

/// Bytes past the end of a lent buffer, which no call may touch.
const BEHIND: usize = 64;

/// Filling for lent buffers: no byte a text can hold, different from place to place.
pub fn pattern(length: usize) -> Vec<u8> {
    (0..length).map(|k| 0x80 | k as u8).collect()
}

/// A buffer that is lent to one call after the other, and holds the pattern before each.
pub struct Lent {
    bytes: Vec<u8>,
    untouched: Vec<u8>,
}

impl Lent {
    pub fn new(length: usize) -> Lent {
        Lent {
            bytes: pattern(length),
            untouched: pattern(length),
        }
    }

    /// The call writes just this to the front, and leaves the bytes behind it. If not, the texts are shown.
    pub fn expect(
        &mut self,
        wanted: &[u8],
        texts: &[&[u8]],
        call: impl FnOnce(&mut [u8]) -> usize,
    ) {
        let length = call(&mut self.bytes);
        let (written, behind) = self.bytes.split_at(length);
        let is_right = written == wanted && *behind == self.untouched[length..];
        assert!(
            is_right,
            "{:?}",
            texts.iter().map(|text| shown(text)).collect::<Vec<_>>()
        );
        self.bytes[..length].copy_from_slice(&self.untouched[..length]);
    }
}

/// Lends the call buffers of many lengths. One that is shorter than the room gets nothing; any
/// other gets just what is wanted.
pub fn expect_room(room: usize, wanted: &[u8], call: impl Fn(&mut [u8]) -> usize) {
    for length in [0, 1, 14, 15, room - 1, room, room + 1, room + 100_000] {
        let wanted = if length < room { b"" } else { wanted };
        let mut bytes = pattern(length + BEHIND);
        let written = call(&mut bytes[..length]);
        assert_eq!(written, wanted.len(), "a buffer of {length} bytes");
        assert!(bytes[..written] == *wanted);
        assert!(bytes[written..] == pattern(length + BEHIND)[written..]);
    }
}

/// Bytes that are plain text.
pub fn text(bytes: &[u8]) -> &str {
    std::str::from_utf8(bytes).unwrap()
}

/// The beginning of a text, for a test that has failed.
pub fn shown(text: &[u8]) -> String {
    let start = String::from_utf8_lossy(&text[..text.len().min(2000)]);
    format!("{} bytes: {start:?}", text.len())
}
