//! Texts to work on, the same as those of `support.c`.

pub fn next_state(state: u64) -> u64 {
    state.wrapping_mul(6_364_136_223_846_793_005).wrapping_add(1_442_695_040_888_963_407)
}

fn letter(state: u64) -> char {
    match ((state >> 33) % 27) as u8 {
        26 => ' ',
        n => (b'a' + n) as char,
    }
}

pub fn letters(count: usize) -> Vec<char> {
    let mut state = 1;
    (0..count)
        .map(|_| {
            state = next_state(state);
            letter(state)
        })
        .collect()
}

pub fn mix(check: u64, more: u64) -> u64 {
    check.wrapping_mul(31).wrapping_add(more)
}

/// The check value of bytes, by eight of them at a time, so that it takes little of a job's time.
pub fn check_bytes(bytes: &[u8]) -> u64 {
    let words = bytes.chunks_exact(8);
    let rest = words.remainder();
    let check = words.fold(bytes.len() as u64, |check, word| mix(check, u64::from_le_bytes(word.try_into().expect("eight bytes"))));
    rest.iter().fold(check, |check, byte| mix(check, *byte as u64))
}

/// The check value of a text in UTF-8.
pub fn check_of(runes: &[char]) -> u64 {
    String::from_iter(runes).bytes().fold(0, |check, byte| mix(check, byte as u64))
}
