//! Tables of words.

/// A table of the variants of a type by their words.
macro_rules! words {
    ($table:ident: $of:ident { $($word:literal $variant:ident)* }) => {
        static $table: &[(&str, $of)] = &[$(($word, $of::$variant)),*];
    };
}
pub(crate) use words;

/// The entry for a word, if there is one.
pub fn found<T: Copy>(table: &[(&str, T)], word: &str) -> Option<T> {
    for (known, meant) in table {
        if *known == word {
            return Some(*meant);
        }
    }
    None
}
