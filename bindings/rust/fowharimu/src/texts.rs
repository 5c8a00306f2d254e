//! Texts that the library writes.

use crate::Error;
use fowharimu_sys as sys;

/// The octets of room that a name is first given. A longer one gets more.
pub(crate) const NAME_ROOM: usize = 256;

/// The text of a member of a JSON object in which no name stands twice; nothing where there is none.
pub(crate) fn text_member(document: &[u8], name: &str) -> Result<Option<String>, Error> {
    // SAFETY: the slices are as long as their lengths say, and aren't null.
    written(document.len() + 1, |out, room, len| unsafe {
        sys::fow_text_member(
            document.as_ptr(),
            document.len(),
            name.as_ptr(),
            name.len(),
            out,
            room,
            len,
        )
    })
}

/// The text that a call writes, in as much room as it needs and at least this; nothing where there is nothing to write.
///
/// # Errors
/// `OutOfMemory`, also where there is no such room, and `NotUtf8`.
pub(crate) fn written(
    mut room: usize,
    mut call: impl FnMut(*mut u8, usize, *mut usize) -> u32,
) -> Result<Option<String>, Error> {
    loop {
        let mut out = Vec::new();
        out.try_reserve_exact(room)
            .map_err(|_| Error::OutOfMemory)?;
        out.resize(room, 0);
        let mut len = 0;
        match call(out.as_mut_ptr(), room, &mut len) {
            sys::FOW_OK => {
                out.truncate(len);
                return String::from_utf8(out).map(Some).map_err(|_| Error::NotUtf8);
            }
            sys::FOW_ABSENT => return Ok(None),
            sys::FOW_TOO_SHORT => room = room.checked_mul(2).ok_or(Error::OutOfMemory)?,
            _ => return Err(Error::OutOfMemory),
        }
    }
}

#[cfg(test)]
mod tests {
    use super::*;
    use std::ptr;

    /// What is written by a call that writes these octets where there is room for them.
    fn written_of(octets: &[u8], room: usize) -> Result<Option<String>, Error> {
        written(room, |out, room, len| {
            if room < octets.len() {
                return sys::FOW_TOO_SHORT;
            }
            // SAFETY: there is as much room.
            unsafe {
                ptr::copy_nonoverlapping(octets.as_ptr(), out, octets.len());
                *len = octets.len();
            }
            sys::FOW_OK
        })
    }

    #[test]
    fn it_asks_again_with_more_room() {
        assert_eq!(written_of(b"role", 1), Ok(Some("role".to_owned())));
        assert_eq!(written_of(b"", 1), Ok(Some(String::new())));
        let long = "x".repeat(100_000);
        assert_eq!(written_of(long.as_bytes(), 1), Ok(Some(long)));
    }

    #[test]
    fn no_answer_is_taken_for_another() {
        assert_eq!(written_of(b"\xff", 8), Err(Error::NotUtf8));
        assert_eq!(written(8, |_, _, _| sys::FOW_ABSENT), Ok(None));
        assert_eq!(
            written(8, |_, _, _| sys::FOW_OUT_OF_MEMORY),
            Err(Error::OutOfMemory)
        );
        assert_eq!(
            written(8, |_, _, _| sys::FOW_NOT_OPEN),
            Err(Error::OutOfMemory)
        );
        assert_eq!(
            written(usize::MAX, |_, _, _| sys::FOW_OK),
            Err(Error::OutOfMemory)
        );
    }
}
