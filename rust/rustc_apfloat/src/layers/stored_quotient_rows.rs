//! Quotients in storage formats, computed by `evidence/stored_quotients.py`.

pub(super) static QUOTIENTS_E2M1FN: [u64; 5] =
    [0xe293f20cf0517fe0, 0x1c10019abb5f8f60, 0xd7d7274d6041d560, 0x1af0ad584b579860, 0xec53e95ff8460fe0];

pub(super) static QUOTIENTS_E2M3FN: [u64; 5] =
    [0x5d52bb00971a1260, 0x341ed29601afece0, 0x2b625464d67d1ce0, 0xc8b27251f2d8b4e0, 0xe6a17130eff45260];

pub(super) static QUOTIENTS_E3M2FN: [u64; 5] =
    [0x82542ac7884fd560, 0x3fe1fc7886929160, 0x99d920ddad0b6660, 0x4d57a03bcfca00e0, 0xbac27e7106be1560];
