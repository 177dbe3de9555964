//! What the structs of records are made of: slices of theirs, and lists of other structs, for which there is room on
//! the stack or, of many elements, on the heap.

use std::marker::PhantomData;
use std::mem::{align_of, size_of, take, MaybeUninit};
use std::ptr::NonNull;

use super::appended;

/// Bytes of a record, as the library takes them.
#[repr(C)]
#[derive(Clone, Copy)]
pub(crate) struct Slice<'r> {
    at: *const u8,
    length: usize,
    record: PhantomData<&'r [u8]>,
}

impl Default for Slice<'_> {
    #[inline(always)]
    fn default() -> Self {
        Slice {
            at: NonNull::dangling().as_ptr(),
            length: 0,
            record: PhantomData,
        }
    }
}

/// Elements of a record, as the library takes them.
#[repr(C)]
#[derive(Clone, Copy)]
pub(crate) struct List<'r, T> {
    at: *const T,
    count: usize,
    record: PhantomData<&'r [T]>,
}

impl<T> Default for List<'_, T> {
    #[inline(always)]
    fn default() -> Self {
        List {
            at: NonNull::dangling().as_ptr(),
            count: 0,
            record: PhantomData,
        }
    }
}

impl<'r, T> List<'r, T> {
    /// These elements, where they are.
    #[inline(always)]
    pub(crate) fn of(elements: &'r [T]) -> Self {
        List {
            at: elements.as_ptr(),
            count: elements.len(),
            record: PhantomData,
        }
    }
}

/// A struct that the library takes for a record.
///
/// # Safety
///
/// It is laid out as the C struct that the call takes; the call reads it and what it points to, and writes at most
/// as many bytes as it is given room for. If it returns no more than that and no error, it has written that many.
pub(crate) unsafe trait Struct: Copy {
    /// The call of the library that writes the payload of one.
    const ENCODE: unsafe extern "C" fn(*const Self, *mut u8, usize) -> i64;
}

/// A word of the room for lists.
type Word = MaybeUninit<u64>;

/// How many words there are on the stack: 64 headers.
const WORDS: usize = 256;

/// What a struct takes besides its slices, at most, except with very many fields. It is a guess: where it is too
/// little, the payload is written again.
const BESIDE: usize = 64;

/// How many bytes a slice takes besides its own, as a guess.
const BESIDE_SLICE: usize = 8;

/// Whether elements may be anywhere in the room for lists, which is found out when this is compiled.
struct Aligned<T>(PhantomData<T>);

impl<T> Aligned<T> {
    const IS: () = assert!(align_of::<T>() <= align_of::<Word>());
}

/// The room for lists while a struct is made, and how many bytes its payload may have.
pub(crate) struct Lists<'l> {
    left: &'l mut [Word],
    spilled: Vec<Box<[Word]>>,
    guess: usize,
    is_short_of_memory: bool,
}

impl Lists<'_> {
    /// Bytes of a record.
    #[inline(always)]
    pub(crate) fn bytes<'r>(&mut self, bytes: &'r [u8]) -> Slice<'r> {
        self.guess += bytes.len() + BESIDE_SLICE;
        Slice {
            at: bytes.as_ptr(),
            length: bytes.len(),
            record: PhantomData,
        }
    }

    /// A text of a record.
    #[inline(always)]
    pub(crate) fn text<'r>(&mut self, text: &'r str) -> Slice<'r> {
        self.bytes(text.as_bytes())
    }

    /// A list of what each element is as a struct.
    #[inline(always)]
    pub(crate) fn list<'r, R, T: Copy>(
        &mut self,
        elements: &'r [R],
        of: impl Fn(&'r R, &mut Self) -> T,
    ) -> List<'r, T> {
        if elements.is_empty() {
            return List::default();
        }
        self.some(elements, of)
    }

    fn some<'r, R, T: Copy>(
        &mut self,
        elements: &'r [R],
        of: impl Fn(&'r R, &mut Self) -> T,
    ) -> List<'r, T> {
        let () = Aligned::<T>::IS;
        let words = elements.len() * size_of::<T>() / size_of::<Word>() + 1;
        let place = match self.take(words) {
            Some(place) => place,
            None => {
                self.is_short_of_memory = true;
                return List::default();
            }
        };
        let first: *mut T = place.cast();
        for (at, element) in elements.iter().enumerate() {
            let made = of(element, self);
            // SAFETY: there is room for as many as there are elements, which nothing else is given; it is aligned, as
            // is said above, and stays where it is until the struct was written
            unsafe { first.add(at).write(made) };
        }
        List {
            at: first,
            count: elements.len(),
            record: PhantomData,
        }
    }

    /// Room for this many words, which is given once; `None` where there is no memory.
    fn take(&mut self, words: usize) -> Option<*mut Word> {
        if words <= self.left.len() {
            let (taken, left) = take(&mut self.left).split_at_mut(words);
            self.left = left;
            return Some(taken.as_mut_ptr());
        }
        let mut more = Vec::new();
        more.try_reserve_exact(words).ok()?;
        more.resize(words, Word::uninit());
        self.spilled.try_reserve(1).ok()?;
        self.spilled.push(more.into_boxed_slice());
        self.spilled.last_mut().map(|taken| taken.as_mut_ptr())
    }
}

/// Appends the payload of the struct that a record is made, after this many zeros, for which an empty vector gets room,
/// and returns its length. `None` if it has no payload, or there is no memory; then the vector is as it was, except
/// the zeros.
#[inline(always)]
pub(crate) fn append_struct<S: Struct>(
    out: &mut Vec<u8>,
    before: usize,
    make: impl FnOnce(&mut Lists<'_>) -> S,
) -> Option<usize> {
    let mut room = [Word::uninit(); WORDS];
    let mut lists = Lists {
        left: &mut room,
        spilled: Vec::new(),
        guess: BESIDE,
        is_short_of_memory: false,
    };
    let given = make(&mut lists);
    if lists.is_short_of_memory {
        return None;
    }
    if before > 0 {
        out.try_reserve_exact(before + lists.guess).ok()?;
        out.resize(before, 0);
    }
    // SAFETY: the struct is that of the call, and what it points to is borrowed by it, or in the room, which stays as
    // long as `lists`
    unsafe {
        appended(out, lists.guess, |place, room| {
            S::ENCODE(&given, place, room)
        })
    }
    .ok()
}
