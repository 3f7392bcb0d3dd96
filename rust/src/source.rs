//! Where a text comes from.

/// Bytes as they stand, or a recording of a text.
#[derive(Clone, Copy, Debug)]
pub struct Part<'a> {
    pub(crate) form: Form,
    pub(crate) bytes: &'a [u8],
}

/// How the bytes of a part are read; the numbers are those of the boundary.
#[derive(Clone, Copy, Debug)]
pub(crate) enum Form {
    Held = 1,
    Recording = 2,
}

impl<'a> Part<'a> {
    /// The text is these bytes, and whole.
    pub fn held(bytes: &'a [u8]) -> Part<'a> {
        Part {
            form: Form::Held,
            bytes,
        }
    }

    /// The text and its ending are those that the records of 64 bytes hold. A recording that is not well made is
    /// refused 22 by the call that reads it.
    pub fn recording(bytes: &'a [u8]) -> Part<'a> {
        Part {
            form: Form::Recording,
            bytes,
        }
    }
}

/// What a call reads: one part, or two joined.
///
/// A join of joins is not offered: the static library takes two parts at most.
#[derive(Clone, Copy, Debug)]
pub struct Source<'a> {
    pub(crate) first: Part<'a>,
    pub(crate) second: Part<'a>,
}

impl<'a> Source<'a> {
    /// The text is these bytes, and whole.
    pub fn held(bytes: &'a [u8]) -> Source<'a> {
        Source::from(Part::held(bytes))
    }

    /// The text and its ending are those of a recording; see [`Part::recording`].
    pub fn recording(bytes: &'a [u8]) -> Source<'a> {
        Source::from(Part::recording(bytes))
    }

    /// The first text and then the second with its ending; the first alone where that one is broken.
    pub fn joined(first: Part<'a>, second: Part<'a>) -> Source<'a> {
        Source { first, second }
    }
}

/// A part alone: nothing is joined to it.
impl<'a> From<Part<'a>> for Source<'a> {
    fn from(part: Part<'a>) -> Source<'a> {
        Source::joined(part, Part::held(&[]))
    }
}
