// From here on ours: the build puts this module behind the unchanged text of `scenario.rs`, for a
// module inside it sees its private functions.
pub mod inside {
    pub struct Entry {
        pub indent: usize,
        pub number: usize,
        pub text: String,
    }

    /// The line entries of a whole text.
    pub fn entries(text: &str) -> Result<Vec<Entry>, super::ScenarioError> {
        let lines = super::significant_lines(text)?;
        Ok(lines
            .into_iter()
            .map(|line| Entry { indent: line.indent, number: line.number, text: line.text })
            .collect())
    }

    /// One line's value, as line 1.
    pub fn flow(text: &str) -> Result<super::Yaml, super::ScenarioError> {
        super::parse_flow(text, 1)
    }

    /// The place of the colon that ends the key of one line.
    pub fn key_end(text: &str) -> Option<usize> {
        super::key_end(text)
    }
}
