//! The proved library, as `rt lib` builds it in `crates/exported`.

use crate::evening::Evening;

/// Where a slice begins and how many octets it has, for a group file, its records and a buffer.
type Writer = unsafe extern "C" fn(*const u8, usize, *const u8, usize, *mut u8, usize) -> usize;

extern "C" {
    fn kirsodza_listing(
        file: *const u8,
        file_length: usize,
        list: *const u8,
        list_length: usize,
        out: *mut u8,
        out_length: usize,
    ) -> usize;

    fn kirsodza_evening(
        file: *const u8,
        file_length: usize,
        list: *const u8,
        list_length: usize,
        out: *mut u8,
        out_length: usize,
    ) -> usize;

    fn kirsodza_word(
        file: *const u8,
        file_length: usize,
        list: *const u8,
        list_length: usize,
        out: *mut u8,
        out_length: usize,
    ) -> usize;

    fn kirsodza_chronicle(
        file: *const u8,
        file_length: usize,
        list: *const u8,
        list_length: usize,
        plan: bool,
        out: *mut u8,
        out_length: usize,
    ) -> usize;
}

/// A first guess that most texts and many chronicles fit in.
const USUAL_LENGTH: usize = 1 << 18;

/// What `write` stores. It answers the whole length and stores as much as the buffer takes, so a
/// buffer that was too short is asked for again with room.
fn whole(write: impl Fn(&mut [u8]) -> usize) -> Vec<u8> {
    let mut out = vec![0; USUAL_LENGTH];
    let length = write(&mut out);
    if length > out.len() {
        out = vec![0; length];
        write(&mut out);
    }
    out.truncate(length);
    out
}

fn text(writer: Writer, evening: &Evening) -> Vec<u8> {
    let (file, list) = (&evening.group, &evening.records);
    // SAFETY: the pointers and lengths are of slices that live during the call, the last of them
    // lent to nobody else, and the library is proved to stay within the slices that it is lent.
    whole(|out| unsafe {
        writer(file.as_ptr(), file.len(), list.as_ptr(), list.len(), out.as_mut_ptr(), out.len())
    })
}

/// The listing of step records, or the text of a plan's evening.
pub fn listing(evening: &Evening) -> Vec<u8> {
    let writer = if evening.plan { kirsodza_evening as Writer } else { kirsodza_listing };
    text(writer, evening)
}

/// The line that says which word settled the latest recovery. The records are those of steps.
pub fn word(evening: &Evening) -> Vec<u8> {
    text(kirsodza_word, evening)
}

/// The chronicle of the run, as `docs/CHRONICLE.md` lays it out.
pub fn chronicle(evening: &Evening) -> Vec<u8> {
    let (file, list) = (&evening.group, &evening.records);
    // SAFETY: as in `text`.
    whole(|out| unsafe {
        kirsodza_chronicle(
            file.as_ptr(),
            file.len(),
            list.as_ptr(),
            list.len(),
            evening.plan,
            out.as_mut_ptr(),
            out.len(),
        )
    })
}

#[cfg(test)]
mod tests {
    use super::*;

    /// As a function of the library does it: the whole length, and as much as there is room for.
    fn store(text: &[u8], out: &mut [u8]) -> usize {
        let stored = text.len().min(out.len());
        out[..stored].copy_from_slice(&text[..stored]);
        text.len()
    }

    #[test]
    fn texts_come_whole_however_long_they_are() {
        for length in [0, 1, USUAL_LENGTH - 1, USUAL_LENGTH, USUAL_LENGTH + 1, 3 * USUAL_LENGTH] {
            let text: Vec<u8> = (0..length).map(|place| place as u8).collect();
            assert!(whole(|out| store(&text, out)) == text, "{length}");
        }
    }

    /// Of an empty file, and of one that names one cabinet.
    #[test]
    fn the_library_answers() {
        let none = Evening::default();
        assert_eq!((listing(&none), word(&none)), (b"load 1\n".to_vec(), b"load 1\n".to_vec()));
        assert_eq!(chronicle(&none), [1]);
        let one = Evening { group: vec![0, 1, 0, 0, 0, 10, 0, 10, 0, 10], plan: true, ..none };
        assert_eq!((listing(&one), chronicle(&one)), (b"load 2\n".to_vec(), vec![2]));
    }
}
