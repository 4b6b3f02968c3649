//! The word that was meant by a misspelt one.

/// The first of some words that is one edit away from this one: with a byte put in, taken out or replaced, or with two
/// neighbours swapped.
pub fn suggested<'a>(word: &str, known: &[&'a str]) -> Option<&'a str> {
    known.iter().copied().find(|other| is_one_edit(word.as_bytes(), other.as_bytes()))
}

fn is_one_edit(word: &[u8], other: &[u8]) -> bool {
    let same = word.iter().zip(other).take_while(|(x, y)| x == y).count();
    match (&word[same..], &other[same..]) {
        ([_], []) | ([], [_]) => true,
        (word @ [x, xs @ ..], other @ [y, ys @ ..]) => {
            let is_swap = xs.first() == Some(y) && ys.first() == Some(x) && xs[1..] == ys[1..];
            xs == ys || xs == other || word == ys || is_swap
        }
        _ => false,
    }
}

#[cfg(test)]
mod tests {
    use super::*;

    #[test]
    fn words_one_edit_apart() {
        let meant = |word| suggested(word, &["--help", "-h", "--version"]);
        for word in ["--hep", "--helpp", "--hlep", "--halp", "-help", "--hel"] {
            assert_eq!(meant(word), Some("--help"), "{word}");
        }
        for word in ["--help", "---", "", "--hpel", "--vresino", "help"] {
            assert_eq!(meant(word), None, "{word}");
        }
        assert_eq!(meant("-"), Some("-h"));
        assert_eq!(meant("--verison"), Some("--version"));
    }
}
