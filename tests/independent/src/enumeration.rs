//! Every text up to a length over a small alphabet.

/// Bytes enough to meet every state of a reading: letters and digits of a tag,
/// every mark, a data byte that no tag may hold, and a byte that is no data.
pub const ALPHABET: [u8; 8] = [b'A', b'1', b'+', b':', b'\'', b'?', b'\n', b'a'];

/// Visits the prefix followed by every tail over the alphabet of at most
/// `longest_tail` bytes, the empty one included.
pub fn for_each_text(
    alphabet: &[u8],
    prefix: &[u8],
    longest_tail: usize,
    visit: &mut impl FnMut(&[u8]),
) {
    extend(alphabet, &mut prefix.to_vec(), longest_tail, visit);
}

fn extend(alphabet: &[u8], text: &mut Vec<u8>, room: usize, visit: &mut impl FnMut(&[u8])) {
    visit(text);
    if room == 0 {
        return;
    }
    for &byte in alphabet {
        text.push(byte);
        extend(alphabet, text, room - 1, visit);
        text.pop();
    }
}
