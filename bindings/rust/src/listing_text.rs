//! The listing, over `liblisting_text.a`.

use crate::archive;
use crate::refusal::{outcome, Refusal};

/// The bytes that are enough for the listing of any bytes.
pub const LISTING_ROOM: usize = 80_000;

/// The listing of the bytes, a table or not: the text that the program
/// `listing` prints, at the front of `text`. A refused table has a listing
/// too, so the call is refused just where `text` is shorter than the listing.
/// With the feature `listing_text`.
///
/// The last row is the share of the checkpoints that is kept, in percent: the
/// nearest whole number, and on an exact half the even one. So 1 of 8 gives 12
/// and 3 of 8 give 38; 199 of 200 give 100, and 1 of 200 gives 0.
///
/// Checks: 16.
///
/// ```
/// use keeper::{listing, Refusal, LISTING_ROOM};
/// let mut text = vec![0; LISTING_ROOM];
/// // One process with one checkpoint and no messages.
/// let written = listing(&[1, 0, 0, 0, 1, 0], &mut text)?;
/// assert_eq!(&text[..written], b"line 0\nhold 0 0\ncheckpoint 0 0\nshare 100\n");
/// // With eight, of which the last is kept.
/// let written = listing(&[1, 0, 0, 0, 8, 0], &mut text)?;
/// assert_eq!(&text[..written], b"line 7\nhold 0 7\ncheckpoint 0 7\nshare 12\n");
/// let written = listing(&[1, 0], &mut text)?;
/// assert_eq!(&text[..written], b"refused 1\n");
/// assert_eq!(listing(&[1, 0], &mut text[..9]), Err(Refusal::AnswerTooShort));
/// # Ok::<(), Refusal>(())
/// ```
pub fn listing(table: &[u8], text: &mut [u8]) -> Result<usize, Refusal> {
    let mut written = 0;
    // SAFETY: as of the calls in lib.rs.
    let number = unsafe {
        archive::keeper_listing(
            table.as_ptr(),
            table.len(),
            text.as_mut_ptr(),
            text.len(),
            &mut written,
        )
    };
    outcome(number, written)
}

#[cfg(test)]
mod tests {
    use super::*;

    #[test]
    fn listing_and_its_room() {
        let table = include_bytes!("../../../tests/corpus/example_a.table");
        let expected = include_bytes!("../../../tests/corpus/example_a.listing");
        let mut text = [7; LISTING_ROOM];
        assert_eq!(listing(table, &mut text), Ok(expected.len()));
        assert_eq!(&text[..expected.len()], expected);
        assert_eq!(text[expected.len()], 7);
        let mut short = vec![7; expected.len() - 1];
        assert_eq!(listing(table, &mut short), Err(Refusal::AnswerTooShort));
        assert!(short.iter().all(|byte| *byte == 7));
    }
}
