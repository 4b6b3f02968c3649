//! The storage formats that rows can name.

/// A storage format.
#[derive(Clone, Copy)]
pub struct StorageName {
    /// Its word.
    pub word: &'static str,
    /// The width of its codes in bits.
    pub width: usize,
}

static STORAGE_FORMATS: &[StorageName] = &[
    StorageName { word: "e2m1fn", width: 4 },
    StorageName { word: "e2m3fn", width: 6 },
    StorageName { word: "e3m2fn", width: 6 },
    StorageName { word: "e3m4", width: 8 },
    StorageName { word: "e8m0fnu", width: 8 },
    StorageName { word: "ue4m3", width: 7 },
];

/// Formats of IEEE P3109.
static PROJECTIONS: &[StorageName] = &[
    StorageName { word: "binary8p3se", width: 8 },
    StorageName { word: "binary8p4se", width: 8 },
    StorageName { word: "binary8p5se", width: 8 },
    StorageName { word: "binary8p1uf", width: 8 },
    StorageName { word: "binary3p1sf", width: 3 },
    StorageName { word: "binary6p2ue", width: 6 },
    StorageName { word: "binary8p4sf", width: 8 },
    StorageName { word: "binary15p8se", width: 15 },
];

impl StorageName {
    /// The format of this word.
    pub fn named(word: &str) -> Option<StorageName> {
        STORAGE_FORMATS.iter().find(|known| known.word == word).copied().or_else(|| StorageName::projection(word))
    }

    /// The format of IEEE P3109 of this word.
    pub fn projection(word: &str) -> Option<StorageName> {
        PROJECTIONS.iter().find(|known| known.word == word).copied()
    }
}
