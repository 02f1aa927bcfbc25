//! Stands in for `crate::matchers`.

#[derive(Clone, Debug, PartialEq, Eq)]
pub struct TextPattern;

impl TextPattern {
    pub fn compile(_body: &str) -> Result<TextPattern, ()> {
        Ok(TextPattern)
    }

    pub fn matches(&self, _text: &str) -> bool {
        false
    }
}
