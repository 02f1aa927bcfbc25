//! Scenarios in many writings. Most are accepted; where the Rust reads a writing otherwise than
//! meant, all the better.

use crate::random::Random;

/// What is to be written.
enum Value {
    Null,
    Bool(bool),
    Int(i64),
    Text(String),
    Seq(Vec<Value>),
    Map(Vec<(String, Value)>),
}

const WORDS: &[&str] = &[
    "strike", "noon", "bell 4", "a", "b", "5s", "x-y", "ui:home", "bg=#ffd928", "Glocke\u{e4}",
    "\u{1f514}", "it's", "a: b", "a #b", "#1", "say \"hi\"", "", "true", "null", "~", "007", "-3",
    "- x", "-", "[a]", "{b}", "a, b", "a]", "&x", "*y", "!z", "?q", "|", "|-", ">", ": ", "a:",
    " lead", "trail ", "tab\there", "back\\slash", "two\nlines", "three\n\n  more\nlines\n",
    "one\n", "\u{a0}nb", "\u{3000}", "\u{feff}bom", "\u{200b}", "cr\rhere", "zero\0", "1.5",
    "0x1F", "on", "9223372036854775807", "9223372036854775808", "---", "...", "--- a", "\u{85}",
    "a\u{2028}b",
];

const COMMANDS: &[&str] = &[
    "strike", "wait", "press", "delay", "set", "expect_not", "ui.expect", "play", "7", "true", "",
];

/// Unicode white space that is trimmed at a line's end; a tab is among it.
const BLANKS: &[&str] = &[" ", "  ", "\t", "\u{a0}", "\u{2003}", "\u{3000}", "\u{85}", "\u{b}"];

pub fn scenario(random: &mut Random) -> Vec<u8> {
    let document = document(random);
    let mut writer = Writer {
        newline: if random.once_in(8) { "\r\n" } else { "\n" },
        extras: random.below(4),
        random,
        out: String::new(),
    };
    writer.document(&document);
    writer.out.into_bytes()
}

fn text(value: &str) -> Value {
    Value::Text(value.to_owned())
}

fn scalar(random: &mut Random) -> Value {
    match random.below(8) {
        0 => Value::Null,
        1 => Value::Bool(random.once_in(2)),
        2 | 3 => Value::Int(match random.below(4) {
            0 => random.next() as i64,
            1 => random.pick(&[i64::MIN, i64::MAX, 0, -1, 4_294_967_295, 4_294_967_296]),
            _ => random.below(200) as i64 - 20,
        }),
        _ => text(random.pick(WORDS)),
    }
}

fn value(random: &mut Random, levels: usize) -> Value {
    if levels == 0 || !random.once_in(3) {
        return scalar(random);
    }
    let count = random.below(4);
    if random.once_in(2) {
        Value::Seq((0..count).map(|_| value(random, levels - 1)).collect())
    } else {
        map(random, count, levels - 1)
    }
}

fn map(random: &mut Random, count: usize, levels: usize) -> Value {
    let mut entries: Vec<(String, Value)> = Vec::new();
    for _ in 0..count {
        let key = random.pick(WORDS);
        if entries.iter().all(|(other, _)| other != key) {
            entries.push((key.to_owned(), value(random, levels)));
        }
    }
    Value::Map(entries)
}

fn document(random: &mut Random) -> Value {
    let mut entries = vec![("schema".to_owned(), text("passportsim/scenario@1"))];
    let mut put = |key: &str, value: Value| entries.push((key.to_owned(), value));
    put(
        "name",
        match random.below(4) {
            0 => Value::Int(random.below(100) as i64),
            _ => text(random.pick(WORDS)),
        },
    );
    if random.once_in(2) {
        put("description", scalar(random));
    }
    if random.once_in(3) {
        put("image", scalar(random));
    }
    if random.once_in(3) {
        let count = random.below(4);
        put("tags", Value::Seq((0..count).map(|_| value(random, 1)).collect()));
    }
    if random.once_in(3) {
        put("setup", value(random, 4));
    }
    if random.once_in(3) {
        let mut defaults = Vec::new();
        for key in ["timeout", "wall_budget"] {
            if random.once_in(2) {
                defaults.push((key.to_owned(), scalar(random)));
            }
        }
        random.shuffle(&mut defaults);
        put("defaults", Value::Map(defaults));
    }
    if random.once_in(3) {
        let count = random.below(3);
        put("fail_on", Value::Seq((0..count).map(|_| value(random, 2)).collect()));
    }
    if !random.once_in(10) {
        let count = random.below(5);
        put("steps", Value::Seq((0..count).map(|_| step(random, 1)).collect()));
    }
    if random.once_in(2) {
        random.shuffle(&mut entries);
    }
    Value::Map(entries)
}

fn step(random: &mut Random, repeats: usize) -> Value {
    let mut entries = Vec::new();
    let mut built_in = true;
    if random.once_in(5) {
        entries.push(("repeat".to_owned(), repeat(random, repeats)));
    } else {
        let command = random.pick(COMMANDS);
        built_in = ["delay", "set", "expect_not", "ui.expect"].contains(&command);
        entries.push((command.to_owned(), value(random, 3)));
    }
    for field in ["name", "id", "timeout", "continue_on_error"] {
        if random.once_in(4) {
            entries.push((field.to_owned(), value(random, 1)));
        }
    }
    if random.once_in(4) && (!built_in || random.once_in(10)) {
        let count = random.below(3);
        entries.push(("expect".to_owned(), map(random, count, 2)));
    }
    if random.once_in(3) {
        random.shuffle(&mut entries);
    }
    Value::Map(entries)
}

fn repeat(random: &mut Random, repeats: usize) -> Value {
    if repeats == 0 || random.once_in(8) {
        return value(random, 2);
    }
    let mut entries = Vec::new();
    if !random.once_in(6) {
        let times = match random.below(4) {
            0 => scalar(random),
            _ => Value::Int(random.below(9) as i64),
        };
        entries.push(("times".to_owned(), times));
    }
    if !random.once_in(6) {
        let count = random.below(4);
        let steps = (0..count).map(|_| match random.below(12) {
            0 => value(random, 1),
            _ => step(random, repeats - 1),
        });
        entries.push(("steps".to_owned(), Value::Seq(steps.collect())));
    }
    Value::Map(entries)
}

struct Writer<'a> {
    random: &'a mut Random,
    newline: &'static str,
    /// How much is strewn in that has no meaning; 0 is none.
    extras: usize,
    out: String,
}

impl Writer<'_> {
    fn document(&mut self, document: &Value) {
        if self.random.once_in(20) {
            let line = self.flow(document);
            self.out.push_str(&line);
            return;
        }
        let indent = if self.random.once_in(20) { self.random.below(4) } else { 0 };
        self.block(document, indent);
        if self.random.once_in(4) {
            let end = self.out.trim_end().len();
            self.out.truncate(end);
        }
    }

    /// A value on lines of its own.
    fn block(&mut self, value: &Value, indent: usize) {
        match value {
            Value::Map(entries) if !entries.is_empty() => {
                for (key, value) in entries {
                    self.between(indent);
                    self.out.push_str(&" ".repeat(indent));
                    self.entry(key, value, indent);
                }
            }
            Value::Seq(items) if !items.is_empty() => {
                for item in items {
                    self.between(indent);
                    self.out.push_str(&" ".repeat(indent));
                    self.item(item, indent);
                }
            }
            _ => {
                self.out.push_str(&" ".repeat(indent));
                let line = self.flow(value);
                self.out.push_str(&line);
                self.end_line();
            }
        }
    }

    /// `key: value`, from the key on; the value may go on below.
    fn entry(&mut self, key: &str, value: &Value, indent: usize) {
        let key = self.scalar_text(&text(key), false);
        self.out.push_str(&key);
        if self.extra(6) {
            let blank = self.random.pick(BLANKS);
            self.out.push_str(blank);
        }
        self.out.push(':');
        let below = matches!(value, Value::Map(entries) if !entries.is_empty())
            || matches!(value, Value::Seq(items) if !items.is_empty());
        if let Value::Text(text) = value
            && self.literal(text, indent)
        {
            return;
        }
        if (below && !self.random.once_in(4)) || self.random.once_in(30) {
            self.end_line();
            let deeper = indent + 1 + self.random.below(4);
            self.block(value, deeper);
            return;
        }
        if matches!(value, Value::Null) && self.random.once_in(2) {
            self.end_line();
            return;
        }
        self.out.push(' ');
        if self.extra(6) {
            let blank = self.random.pick(BLANKS);
            self.out.push_str(blank);
        }
        let line = match value {
            Value::Map(_) | Value::Seq(_) => self.flow(value),
            _ => self.scalar_text(value, false),
        };
        self.out.push_str(&line);
        self.end_line();
    }

    fn item(&mut self, item: &Value, indent: usize) {
        self.out.push('-');
        match item {
            Value::Null if self.random.once_in(2) => self.end_line(),
            _ if self.random.once_in(8) => {
                self.end_line();
                let deeper = indent + 1 + self.random.below(3);
                self.block(item, deeper);
            }
            Value::Map(entries) if !entries.is_empty() && !self.random.once_in(6) => {
                let spaces = if self.extra(3) { 1 + self.random.below(3) } else { 1 };
                self.out.push_str(&" ".repeat(spaces));
                let column = indent + 1 + spaces;
                for (place, (key, value)) in entries.iter().enumerate() {
                    if place > 0 {
                        self.between(column);
                        self.out.push_str(&" ".repeat(column));
                    }
                    self.entry(key, value, column);
                }
            }
            _ => {
                self.out.push(' ');
                let line = match item {
                    Value::Map(_) | Value::Seq(_) => self.flow(item),
                    _ => self.scalar_text(item, true),
                };
                self.out.push_str(&line);
                self.end_line();
            }
        }
    }

    /// Writes a text as a literal behind its key's colon, if it can be one.
    fn literal(&mut self, text: &str, indent: usize) -> bool {
        let body = text.strip_suffix('\n').unwrap_or(text);
        let fits = !body.is_empty()
            && !body.ends_with('\n')
            && !body.starts_with(char::is_whitespace)
            && !body.contains(['\r', '\t', '\0'])
            && body.lines().all(|line| line.trim_end() == line);
        if !fits || !self.random.once_in(4) {
            return false;
        }
        let spaces = if self.extra(8) { "  " } else { " " };
        self.out.push_str(spaces);
        self.out.push_str(if text.ends_with('\n') { "|" } else { "|-" });
        self.end_line();
        let deeper = indent + 1 + self.random.below(3);
        for line in body.split('\n') {
            if !line.is_empty() {
                self.out.push_str(&" ".repeat(deeper));
                self.out.push_str(line);
            }
            self.out.push_str(self.newline);
        }
        true
    }

    fn flow(&mut self, value: &Value) -> String {
        let space = |writer: &mut Self| if writer.extra(4) { " " } else { "" };
        match value {
            Value::Seq(items) => {
                let mut out = "[".to_owned() + space(self);
                for (place, item) in items.iter().enumerate() {
                    if place > 0 {
                        out.push_str(space(self));
                        out.push_str(if self.extra(20) { ",," } else { "," });
                        out.push_str(if self.extra(4) { "" } else { " " });
                    }
                    out.push_str(&self.flow(item));
                }
                if !items.is_empty() && self.extra(10) {
                    out.push(',');
                }
                out + space(self) + "]"
            }
            Value::Map(entries) => {
                let mut out = "{".to_owned() + space(self);
                for (place, (key, value)) in entries.iter().enumerate() {
                    if place > 0 {
                        out.push_str(", ");
                    }
                    out.push_str(&self.scalar_text(&text(key), true));
                    out.push_str(space(self));
                    out.push(':');
                    if !matches!(value, Value::Null) || self.random.once_in(2) {
                        out.push(' ');
                        out.push_str(&self.flow(value));
                    }
                }
                if !entries.is_empty() && self.extra(10) {
                    out.push(',');
                }
                out + space(self) + "}"
            }
            _ => self.scalar_text(value, true),
        }
    }

    /// A scalar in one of its writings. `flow` is for brackets and behind a dash, where fewer
    /// texts can be plain.
    fn scalar_text(&mut self, value: &Value, flow: bool) -> String {
        match value {
            Value::Null => self.random.pick(&["~", "null", "Null", "NULL"]).to_owned(),
            Value::Bool(true) => self.random.pick(&["true", "True", "TRUE"]).to_owned(),
            Value::Bool(false) => self.random.pick(&["false", "False", "FALSE"]).to_owned(),
            Value::Int(number) => {
                let digits = number.unsigned_abs().to_string();
                let zeros = if self.extra(6) { "00" } else { "" };
                let sign = match *number {
                    ..0 => "-",
                    _ if self.extra(6) => "+",
                    _ => "",
                };
                format!("{sign}{zeros}{digits}")
            }
            Value::Text(text) if can_be_plain(text, flow) && !self.random.once_in(5) => {
                text.clone()
            }
            Value::Text(text) if !text.contains(['\n', '\r', '\0']) && self.random.once_in(2) => {
                format!("'{}'", text.replace('\'', "''"))
            }
            Value::Text(text) => {
                let mut out = String::from("\"");
                for c in text.chars() {
                    match c {
                        '\n' => out.push_str("\\n"),
                        '\r' => out.push_str("\\r"),
                        '\0' => out.push_str("\\0"),
                        '\t' if self.random.once_in(2) => out.push_str("\\t"),
                        '/' if self.random.once_in(4) => out.push_str("\\/"),
                        '"' | '\\' => out.extend(['\\', c]),
                        _ => out.push(c),
                    }
                }
                out + "\""
            }
            Value::Seq(_) | Value::Map(_) => self.flow(value),
        }
    }

    /// The end of a line, with what is trimmed or cut there.
    fn end_line(&mut self) {
        if self.extra(8) {
            let blank = self.random.pick(BLANKS);
            self.out.push_str(blank);
        }
        if self.extra(8) {
            let comment =
                self.random.pick(&[" # c", "  #", " # it's \"so\"", " #: [", " # \u{e4}"]);
            self.out.push_str(comment);
        }
        self.out.push_str(self.newline);
    }

    /// Blank lines and comments before an entry.
    fn between(&mut self, indent: usize) {
        if self.extra(8) {
            let line = match self.random.below(4) {
                0 => String::new(),
                1 => " ".repeat(self.random.below(6)),
                2 => "# a comment".to_owned(),
                _ => " ".repeat(indent) + "# a: [",
            };
            self.out.push_str(&line);
            self.out.push_str(self.newline);
        }
    }

    fn extra(&mut self, once_in: usize) -> bool {
        self.extras > 0 && self.random.once_in(3 * once_in / self.extras)
    }
}

fn can_be_plain(text: &str, flow: bool) -> bool {
    let number = text.trim_start_matches(['+', '-']);
    let says_other = ["", "~", "null", "true", "|", "|-", "-"].contains(&text)
        || (!number.is_empty() && number.bytes().all(|byte| byte.is_ascii_digit()));
    !says_other
        && text.trim() == text
        && !text.starts_with(['[', '{', '"', '\'', '&', '*', '!', '?', '#', '-'])
        && !text.contains(['\n', '\r', '"', '\''])
        && !text.contains(" #")
        && !text.contains(": ")
        && !text.ends_with(':')
        && !(flow && text.contains([',', ']', '}', '[', '{']))
        && text != "..."
}
