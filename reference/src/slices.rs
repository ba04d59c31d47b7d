//! Larger slices: by document 02, "S goes up to 4,096", but a trace file names no more than 256 sets. Here the steps of
//! a file are calls, which may have any number of sets.
//!
//! The calls come from a file in the form of a trace file, and their text is in the form of a listing. Whichever sets,
//! ways and rule the file names are those of its calls: outside the limits each call is refused by 1. No list of cores
//! is lent: the kinds that name a core are unknown. So the text of a file that stands as a trace file, and has no step
//! of these kinds, is its listing. A file without the form may have records and tables before its trace file, [`lent`].

use crate::trace::Form;
use crate::{lent, listing};

/// The whole text. A file without the form that nothing is lent in gives the one line `refused 10`.
pub fn of_file(file: &[u8]) -> String {
    match Form::read(file) {
        Ok(form) => listing::of_calls(&form, None),
        Err(_) => lent::of_file(file),
    }
}
