use crate::note::Note;
use crate::raw;
use std::iter::FusedIterator;
use std::slice;

/// No text has more bytes.
const MAX_TEXT: usize = 1024;

/// So many notes, and bytes of their texts, there is room for, however few there are.
const NOTES: usize = 65;
const BYTES: usize = 2 * MAX_TEXT;

/// And for so many times as much at most once all are yielded.
const KEPT: usize = 16;

/// Notes that were taken of the library, in their order.
#[derive(Default)]
pub(crate) struct Block {
    heads: Vec<raw::Note>,
    /// Their texts, one behind the other.
    texts: Vec<u8>,
    /// So many of them, the last, are still to be yielded,
    notes_left: usize,
    /// and their texts have so many bytes.
    bytes_left: usize,
}

impl Block {
    /// How many are still to be yielded.
    pub(crate) fn len(&self) -> usize {
        self.notes_left
    }

    /// Those notes, with their texts, to be yielded.
    #[inline]
    pub(crate) fn given(&mut self) -> Given<'_> {
        let heads = &self.heads[self.heads.len() - self.notes_left..];
        let texts = &self.texts[self.texts.len() - self.bytes_left..];
        Given { heads: heads.iter(), texts, notes_left: &mut self.notes_left, bytes_left: &mut self.bytes_left }
    }

    /// Takes all notes of a subject, and puts them behind its own.
    #[inline]
    pub(crate) fn fill(&mut self, subject: &mut raw::Subject) {
        self.let_go();
        while self.take_many(subject) {}
    }

    /// Takes as many as there is room for. Whether there may be more.
    #[inline]
    fn take_many(&mut self, subject: &mut raw::Subject) -> bool {
        let (notes, bytes) = (self.heads.len(), self.texts.len());
        if self.heads.capacity() - notes < NOTES || self.texts.capacity() - bytes < BYTES {
            self.heads.reserve(NOTES);
            self.texts.reserve(BYTES);
        }
        let most = self.heads.capacity() - notes;
        let room = self.texts.capacity() - bytes;
        let mut taken = raw::Taken::default();
        // The library fills so many heads, and so many bytes.
        unsafe {
            let heads = self.heads.as_mut_ptr().add(notes);
            let texts = self.texts.as_mut_ptr().add(bytes);
            let number = raw::hazoxe_proved_take_many(subject, heads, most, texts, room, &mut taken);
            debug_assert_eq!(number, raw::OK);
            self.heads.set_len(notes + taken.notes);
            self.texts.set_len(bytes + taken.bytes);
        }
        self.notes_left += taken.notes;
        self.bytes_left += taken.bytes;
        taken.notes == most || room - taken.bytes < MAX_TEXT
    }

    /// Lets go of the notes that were yielded, where they are half of all, so that each is moved once at most.
    #[inline]
    fn let_go(&mut self) {
        let yielded = self.heads.len() - self.notes_left;
        if self.notes_left == 0 {
            self.heads.clear();
            self.texts.clear();
            if self.heads.capacity() > KEPT * NOTES || self.texts.capacity() > KEPT * BYTES {
                *self = Block::default();
            }
        } else if yielded >= self.notes_left {
            self.heads.drain(..yielded);
            self.texts.drain(..self.texts.len() - self.bytes_left);
        }
    }
}

/// The notes that a subject gave ([`Subject::given`](crate::Subject::given)).
pub struct Given<'a> {
    heads: slice::Iter<'a, raw::Note>,
    texts: &'a [u8],
    notes_left: &'a mut usize,
    bytes_left: &'a mut usize,
}

impl Given<'_> {
    /// The observer of the next note.
    pub(crate) fn next_observer(&self) -> Option<u32> {
        self.heads.as_slice().first().map(|head| head.observer)
    }
}

impl<'a> Iterator for Given<'a> {
    type Item = Note<'a>;

    #[inline]
    fn next(&mut self) -> Option<Note<'a>> {
        let head = self.heads.next()?;
        // The heads tell of these texts.
        let (text, texts) = unsafe { self.texts.split_at_unchecked(head.length) };
        self.texts = texts;
        *self.notes_left -= 1;
        *self.bytes_left -= head.length;
        Some(Note { head, text })
    }

    #[inline]
    fn size_hint(&self) -> (usize, Option<usize>) {
        self.heads.size_hint()
    }
}

impl ExactSizeIterator for Given<'_> {}

impl FusedIterator for Given<'_> {}
