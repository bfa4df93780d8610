//! The product: the two functions of its static library, and safe calls of them.

/// What `cutholyar_play` is given.
#[derive(Clone, Debug, Default)]
pub struct Input {
    pub host: u64,
    pub file: Vec<u8>,
    pub ranges: Vec<u64>,
    pub settings: Vec<u64>,
    pub calls: Vec<u64>,
}

extern "C" {
    fn cutholyar_read(file: *const u8, file_len: usize, out: *mut u64, out_len: usize) -> usize;

    fn cutholyar_play(
        host: u64,
        file: *const u8,
        file_len: usize,
        ranges: *const u64,
        ranges_len: usize,
        settings: *const u64,
        settings_len: usize,
        calls: *const u64,
        calls_len: usize,
        out: *mut u64,
        out_len: usize,
    ) -> usize;
}

/// What places hold before the product writes.
const UNWRITTEN: u64 = 0x5afe_0bad_5afe_0bad;

/// Room for a reading's text, and a few places more.
const ROOM_TO_READ: usize = 8;

/// Room past what a text is expected to take, to see that it is left alone.
const ROOM_TO_SPARE: usize = 64;

/// The text of a reading.
pub fn read(file: &[u8]) -> Vec<u64> {
    text_within(ROOM_TO_READ, |out| read_into(file, out))
}

/// The text of a play. Where it fills the room, it is played again with more, so a good guess of its length saves time.
pub fn play(input: &Input, expected: usize) -> Vec<u64> {
    text_within(expected + ROOM_TO_SPARE, |out| play_into(input, out))
}

/// The first places of the text of a play, at most so many.
///
/// # Panics
/// Where the product writes elsewhere, or does not say how much it wrote.
pub fn beginning_of_play(input: &Input, room: usize) -> Vec<u64> {
    let mut out = vec![UNWRITTEN; room + ROOM_TO_SPARE];
    let written = play_into(input, &mut out[..room]);
    assert!(
        written <= room,
        "the product says that it wrote {written} numbers into {room} places"
    );
    cut_to_text(out, written)
}

/// Reads a file, and writes the text into the first places of `out`.
pub fn read_into(file: &[u8], out: &mut [u64]) -> usize {
    // SAFETY: each pointer goes with the length of its slice, and the product keeps none of them.
    unsafe { cutholyar_read(file.as_ptr(), file.len(), out.as_mut_ptr(), out.len()) }
}

/// Plays, and writes the text into the first places of `out`.
pub fn play_into(input: &Input, out: &mut [u64]) -> usize {
    // SAFETY: each pointer goes with the length of its slice, and the product keeps none of them.
    unsafe {
        cutholyar_play(
            input.host,
            input.file.as_ptr(),
            input.file.len(),
            input.ranges.as_ptr(),
            input.ranges.len(),
            input.settings.as_ptr(),
            input.settings.len(),
            input.calls.as_ptr(),
            input.calls.len(),
            out.as_mut_ptr(),
            out.len(),
        )
    }
}

/// The text that a call writes, which gets more room as long as it fills what it has.
fn text_within(room: usize, call: impl Fn(&mut [u64]) -> usize) -> Vec<u64> {
    let mut out = vec![UNWRITTEN; room];
    loop {
        let written = call(&mut out);
        if written < out.len() {
            return cut_to_text(out, written);
        }
        assert!(
            written == out.len(),
            "the product says that it wrote {written} numbers into {} places",
            out.len()
        );
        out = vec![UNWRITTEN; 4 * out.len()];
    }
}

/// Cuts places down to the text in them; all behind it must be as they were.
fn cut_to_text(mut out: Vec<u64>, written: usize) -> Vec<u64> {
    if let Some(place) = out[written..].iter().position(|&x| x != UNWRITTEN) {
        panic!("the product wrote {place} places behind its text of {written} numbers");
    }
    out.truncate(written);
    out
}
