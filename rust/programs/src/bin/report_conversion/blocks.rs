//! Blocks with a common scale, which follows from their greatest magnitude by a rule.

use crate::erased::small_formats::blocks::{ElementFormat, ScaleRule};

/// The rules by their words.
pub const RULES: &[&str] = &["floor", "ceil", "even"];

/// Blocks of so many elements.
#[derive(Clone, Copy)]
pub struct Blocks {
    pub element: ElementFormat,
    pub length: usize,
    pub rule: ScaleRule,
}

/// The rule of this word.
pub fn rule_named(word: &str) -> Option<ScaleRule> {
    match word {
        "floor" => Some(ScaleRule::Floor),
        "ceil" => Some(ScaleRule::Ceil),
        "even" => Some(ScaleRule::Even),
        _ => None,
    }
}
