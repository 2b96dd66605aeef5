//! A part of the crate only where its build script found no library.

/// Generic, so that its constant is worked out where machine code is made of it
/// and not where a program is only checked or documented.
struct Library<const LINKED: bool>;

impl<const LINKED: bool> Library<LINKED> {
    const FOUND: () = panic!("{}", env!("MUNTYZHAP_LIBRARY_MISSING"));
}

/// Stops the compiler, in words.
#[doc(hidden)]
pub fn library() {
    Library::<false>::FOUND
}
