//! The Rust's messages and document 01's numbers.

use crate::scenario::ScenarioError;

/// Document 01's number, line and step; 0 if none.
#[derive(Copy, Clone, Debug, PartialEq, Eq)]
pub struct Refusal {
    pub number: u32,
    pub line: usize,
    pub step: usize,
}

/// A number, and how its message starts, what stands inside it, and how it ends.
struct Row(u32, &'static str, &'static str, &'static str);

/// The first row that fits counts. Some messages hold a key of the scenario, which may read like
/// another message; so the rows that such a key could imitate stand behind those that hold it.
const TABLE: &[Row] = &[
    // These hold a key, and are known by their ends.
    Row(17, "`", "", "` has no `:`"),
    Row(18, "`", "", "` appears twice in the same mapping"),
    Row(22, "`", "", TOP_KEYS),
    Row(29, "`defaults.", "", DEFAULT_KEYS),
    // These hold none, or end in it.
    Row(4, "a tab is not indentation", "", ""),
    Row(5, "scenario@1 is one document;", "", ""),
    Row(6, "this line is indented less than the document", "", ""),
    Row(7, "anchors, aliases and tags are not part", "", ""),
    Row(8, "unexpected text after a complete value", "", ""),
    Row(9, "a flow mapping is not closed", "", ""),
    Row(10, "a flow sequence is not closed", "", ""),
    Row(11, "a string ends inside an escape", "", ""),
    Row(12, "a string has a `\\` escape", "", ""),
    Row(13, "a double-quoted string is not closed", "", ""),
    Row(13, "a single-quoted string is not closed", "", ""),
    Row(14, "a mapping key cannot be empty", "", ""),
    Row(15, "complex keys, anchors and aliases", "", ""),
    Row(16, "a mapping key must be a scalar, saw ", "", ""),
    Row(21, "a scenario is a mapping with a `schema` key, saw ", "", ""),
    Row(23, "`schema` must be `", "", ""),
    Row(24, "a scenario starts with `schema: ", "", ""),
    Row(25, "a scenario needs a `name`", "", ""),
    Row(26, "`tags` is a sequence, saw ", "", ""),
    Row(27, "`fail_on` is a sequence of matchers, saw ", "", ""),
    Row(28, "`defaults` is a mapping, saw ", "", ""),
    Row(29, "`defaults.settle` is not supported", "", ""),
    Row(29, "`defaults.total_timeout` is a whole-scenario", "", ""),
    Row(30, "`defaults.timeout` is a duration", "", ""),
    Row(30, "`defaults.wall_budget` is a duration", "", ""),
    Row(31, "`steps` is a sequence, saw ", "", ""),
    Row(37, "`repeat` needs `steps`", "", ""),
    Row(38, "`repeat` needs `times`", "", ""),
    Row(39, "`repeat.times` is larger", "", ""),
    // A step says its number, here N. 36 holds a key, which may read like 33 or 35.
    Row(36, "step N: `", "` is not a scenario@1 step key; did you mean `", ""),
    Row(32, "step N: a step is a mapping with one command key, saw ", "", ""),
    Row(33, "step N: `expect` is a mapping of the answer's fields, saw ", "", ""),
    Row(34, "step N: a step has exactly one command key beside ", "", ""),
    Row(35, "step N: `expect` asserts a command's answer, and `", "", ""),
];

const TOP_KEYS: &str = "` is not a scenario@1 top-level key (known: schema, name, description, \
                        image, tags, setup, defaults, fail_on, steps)";
const DEFAULT_KEYS: &str = "` is not a scenario@1 default (known: timeout, wall_budget; settle \
                            and total_timeout are refused by name)";

fn number_of(message: &str) -> Option<u32> {
    TABLE
        .iter()
        .find(|Row(_, start, inside, end)| {
            message
                .strip_prefix(start)
                .and_then(|rest| rest.strip_suffix(end))
                .is_some_and(|rest| rest.contains(inside))
        })
        .map(|row| row.0)
}

/// The 3 of "step 3: ..", and the message with N in its place; 0 if it names no step.
fn without_step(message: &str) -> (usize, String) {
    if let Some(rest) = message.strip_prefix("step ")
        && let Some((number, rest)) = rest.split_once(": ")
        && let Ok(step) = number.parse()
    {
        return (step, format!("step N: {rest}"));
    }
    (0, message.to_owned())
}

pub fn refusal_of(error: &ScenarioError) -> Refusal {
    let (step, message) = without_step(&error.message);
    let number = number_of(&message).unwrap_or_else(|| panic!("no number for: {message}"));
    Refusal { number, line: error.line, step }
}
