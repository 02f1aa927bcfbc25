//! Texts at the ends of what is allowed.

const HEAD: &str = "schema: passportsim/scenario@1\nname: n\n";

pub fn boundary() -> Vec<Vec<u8>> {
    let mut texts: Vec<String> = Vec::new();
    lengths(&mut texts);
    entries(&mut texts);
    levels(&mut texts);
    integers(&mut texts);
    literals(&mut texts);
    characters(&mut texts);
    kinds(&mut texts);
    steps(&mut texts);
    imitations(&mut texts);
    let mut texts: Vec<Vec<u8>> = texts.into_iter().map(String::into_bytes).collect();
    no_utf8(&mut texts);
    texts
}

/// 1: 65,535 bytes and around.
fn lengths(texts: &mut Vec<String>) {
    for length in 65_533..=65_537 {
        let fill = |start: &str, piece: &str, end: &str| {
            let rest = length - start.len() - end.len();
            format!("{start}{}{end}", piece.repeat(rest / piece.len()))
                + &" ".repeat(rest % piece.len())
        };
        texts.push(fill("", " ", ""));
        texts.push(fill("#", "c", ""));
        texts.push(fill("", "a", ""));
        texts.push(fill("\"", "a", "\""));
        texts.push(fill("", "\u{3000}", ""));
        texts.push(fill("[", "1,", "]"));
        texts.push(fill("[", "[]", "]"));
        texts.push(fill("[", "\t,", "]"));
        texts.push(fill(HEAD, "\n", "steps:"));
        texts.push(fill(HEAD, "# c\n", "steps:\n - a: 1"));
        texts.push(fill("a: |\n", " x\n", ""));
        texts.push(fill("00", "0", "7"));
    }
}

/// 3: 2,048 entries and around, with what may come after them.
fn entries(texts: &mut Vec<String>) {
    for count in 2_046..=2_050 {
        for end in ["", "\n", "\n\n# c\n", "\n---", "\n\t", "\n\tx"] {
            texts.push("-\n".repeat(count - 1) + "-" + end);
            texts.push("a\n".repeat(count - 1) + "a" + end);
        }
        texts.push((0..count).map(|n| format!("k{n}: {n}\n")).collect());
        texts.push(format!("a: |\n{}", " x\n".repeat(count - 1)));
        // Blank lines in a literal: entries if a line follows, and perhaps the surplus one.
        texts.push(format!("a: |\n{} x", "\n".repeat(count - 2)));
        texts.push(format!("a: |\n{}", "\n".repeat(count)));
        texts.push(format!("a: |\n x\n{} x\n", "\n\n x\n".repeat(count / 3)));
        texts.push(format!("a: |\n{} \tx", "\n".repeat(count)));
        texts.push(format!("{}a: |\n\n\n x", "-\n".repeat(count - 3)));
        texts.push(format!("{HEAD}steps:\n{}", " - a: 1\n".repeat(count - 3)));
    }
}

/// 20: 32 levels and around, in brackets, in lines and in both.
fn levels(texts: &mut Vec<String>) {
    for levels in 30..=35 {
        texts.push("[".repeat(levels) + &"]".repeat(levels));
        texts.push("[".repeat(levels));
        texts.push("{a: ".repeat(levels) + &"}".repeat(levels));
        texts.push("{a: ".repeat(levels));
        texts.push("[{a: ".repeat(levels / 2) + &"}]".repeat(levels / 2));
        texts.push("[[],".repeat(levels) + &"]".repeat(levels));
        texts.push("[".repeat(levels) + &"]".repeat(levels) + ": 1");
        texts.push(format!("{{{}{}: 1}}", "[".repeat(levels), "]".repeat(levels)));
        for item in ["-", "a:", "- a:"] {
            let width = if item == "- a:" { 3 } else { 1 };
            let lines = |count: usize| -> String {
                (0..count).map(|n| format!("{}{item}\n", " ".repeat(width * n))).collect()
            };
            let opened = if item == "- a:" { 2 } else { 1 };
            texts.push(lines(levels / opened));
            for brackets in [1, 2, 7] {
                let above = (levels - brackets) / opened;
                texts.push(
                    lines(above)
                        + &" ".repeat(width * above)
                        + &"[".repeat(brackets)
                        + &"]".repeat(brackets),
                );
            }
        }
        // In a scenario: the document is level 1, the steps 2, a step 3.
        for outer in 1..=4 {
            let nested = "[".repeat(levels - outer) + &"]".repeat(levels - outer);
            texts.push(format!("{HEAD}setup: {nested}"));
            texts.push(format!("{HEAD}fail_on: {nested}"));
            texts.push(format!("{HEAD}steps:\n - a: {nested}\n   expect: {{b: {nested}}}"));
        }
    }
    for levels in [1_000, 20_000, 65_000] {
        texts.push("[".repeat(levels));
        texts.push("[".repeat(levels / 2) + &"]".repeat(levels / 2));
        texts.push("{a: ".repeat(levels / 5) + &"}".repeat(levels / 5));
    }
}

fn integers(texts: &mut Vec<String>) {
    let numbers = [
        "9223372036854775806", "9223372036854775807", "9223372036854775808",
        "18446744073709551615", "18446744073709551616", "99999999999999999999999", "0", "1",
        "4294967294", "4294967295", "4294967296", "2147483648", "00", "007", "", "+", "-", " 1",
        "1 ", "1a", "1_0", "0x1", "1.0", "\u{ff11}", "\u{661}", "1\u{a0}", "\u{a0}1", "1\u{200b}",
    ];
    for number in numbers {
        for sign in ["", "+", "-", "--", "+-", "- "] {
            let zeros = "0".repeat(30);
            texts.push(format!("{sign}{number}"));
            texts.push(format!("a: {sign}{number}"));
            texts.push(format!("[{sign}{number}]"));
            texts.push(format!("{sign}{number}: a"));
            texts.push(format!("{{{sign}{number}: a}}"));
            texts.push(format!("{sign}{zeros}{number}"));
            texts.push(format!("{HEAD}steps:\n - repeat: {{times: {sign}{number}, steps: }}"));
            texts.push(format!("{HEAD}steps:\n - repeat: {{times: \"{sign}{number}\"}}"));
        }
    }
}

fn literals(texts: &mut Vec<String>) {
    for opener in ["a: |", "a: |-", "a:  |", "a: | # c", "- a: |", "- a: |-", "a: b: |", ": |", "|"]
    {
        for first in ["", "\n", "\n\n", "\n   \n", "\n\t\n"] {
            for body in
                [" x", "  x", "   x\n x", " x\n\n   y", " x\n# c\n y # d", "  b: 1 # c", "\tx"]
            {
                for end in ["", "\n", "\n\n\n", "\n\nb: 1", "\n---", "\n  "] {
                    texts.push(format!("{opener}\n{first}{body}{end}"));
                }
            }
        }
    }
    // Far longer than their text: some millions of bytes, and 120 of them.
    for (blanks, indent) in [(10, 60_000), (200, 60_000), (2_040, 60_000)] {
        texts.push(format!("a: |\n x\n{}{}y", "\n".repeat(blanks), " ".repeat(indent)));
    }
    // A tree of 1,048,576 bytes and around: 19 for the items and the key, then `x`, a newline, and
    // 101 lines of spaces, the last with a text at its end.
    let rest = 1_048_576 - 19 - 2;
    let (indent, over) = (rest / 101 - 2, rest - 101 * (rest / 101 - 1));
    for more in 0..4 {
        let body = "y".repeat(over + more - 2);
        texts.push(format!("a: |\n x\n{}{}{body}", "\n".repeat(100), " ".repeat(indent + 1)));
    }
}

/// White space and what only looks like it; each escape; each character as key, value and item.
fn characters(texts: &mut Vec<String>) {
    let mut characters: Vec<char> = (0..=0x100u32).filter_map(char::from_u32).collect();
    characters.extend("\u{1680}\u{180e}\u{2028}\u{2029}\u{202f}\u{205f}\u{2060}\u{3000}".chars());
    characters.extend(('\u{1fff}'..='\u{200f}').chain(['\u{feff}', '\u{fffd}', '\u{10ffff}']));
    for c in characters {
        for text in [
            format!("{c}"),
            format!("{c}{c}a"),
            format!("a{c}"),
            format!("{c}- a"),
            format!("-{c}a"),
            format!("- {c}a: 1\n   b: 2"),
            format!("- {c}a: 1\n    b: 2"),
            format!("a{c}: 1"),
            format!("a:{c}1"),
            format!("a: {c}[1]{c}"),
            format!("a{c}#b"),
            format!("[{c}]"),
            format!("[\"a\"{c}]"),
            format!("[a{c}b]"),
            format!("{{{c}}}"),
            format!("{{a{c}: 1}}"),
            format!("{{a:{c}}}"),
            format!("{{\"a\"{c}: 1}}"),
            format!("\"{c}\""),
            format!("\"\\{c}\""),
            format!("'{c}'"),
            format!("a: |\n {c}\n x"),
            format!("a: |\n {c}x{c}\n"),
            format!("---{c}"),
            format!("{HEAD}steps:{c}\n - a: 1"),
            format!("{HEAD}{c}: 1"),
        ] {
            texts.push(text);
        }
    }
}

/// Each key of a scenario and a step with a value of each kind.
fn kinds(texts: &mut Vec<String>) {
    let values = [
        "", "~", "true", "False", "7", "-007", "x", "\"\"", "\"true\"", "[]", "[~]", "{}",
        "[a, ~, [b], 1, True]", "{a: 1}", "{timeout: 5s}", "{timeout: [], x: 1}",
        "{x: 1, timeout: []}", "{wall_budget: , timeout: 7}", "{settle: 1}", "{total_timeout: 1}",
        "[{}]", "[{a: 1}]", "[1]", "[{a: 1, b: 2}]", "[{expect: }]", "[{a: , expect: {}}]",
        "[{set: , expect: {}}]", "{steps: }", "{steps: {}}", "{steps: [{a: 1}, 1], times: 3}",
        "{steps: [{repeat: 1}, {x: 1}]}", "{steps: [{ui.expect: 1}]}", "passportsim/scenario@1",
    ];
    let top = [
        "schema", "name", "description", "image", "tags", "setup", "defaults", "fail_on", "steps",
        "extra",
    ];
    let fields = [
        "name", "id", "timeout", "continue_on_error", "expect", "repeat", "set", "delay",
        "expect_not", "ui.expect", "strike", "wait", "\"\"",
    ];
    for value in values {
        for key in top {
            texts.push(format!("{key}: {value}"));
            let rest: Vec<&str> = HEAD.lines().filter(|line| !line.starts_with(key)).collect();
            texts.push(format!("{}\n{key}: {value}", rest.join("\n")));
            for other in ["tags: 1", "fail_on: 1", "defaults: 1", "steps: 1", "extra: 1"] {
                texts.push(format!("{key}: {value}\n{HEAD}{other}"));
            }
        }
        for field in fields {
            texts.push(format!("{HEAD}steps:\n - {field}: {value}"));
            texts.push(format!("{HEAD}steps: [{{{field}: {value}}}]"));
            for other in ["a: 1", "repeat: ", "set: 1", "expect: {}", "expect: 1"] {
                texts.push(format!("{HEAD}steps:\n - strike: 1\n - {other}\n   {field}: {value}"));
            }
            texts.push(format!("{HEAD}steps:\n - repeat: {{steps: [{{{field}: {value}}}]}}"));
        }
    }
}

/// Where step lines are found and where not; many steps.
fn steps(texts: &mut Vec<String>) {
    for start in
        ["steps:", "steps: ", "steps: # c", "steps :", "\"steps\":", "steps:\u{a0}", " steps:"]
    {
        for body in [
            " - a: 1\n - b: 2", "- a: 1", " -\n  a: 1\n - b:\n    - c", "  [{a: 1}]", "",
            " # c\n   - a: 1\n\n   - b: 1", " - a: |\n    - x\n - b: 1", " - {a: 1}\n - {b: 1}",
        ] {
            texts.push(format!("{HEAD}{start}\n{body}"));
            texts.push(format!("description: |\n steps:\n - x\n{HEAD}{start}\n{body}"));
            texts.push(format!("{start}\n{body}\n{HEAD}"));
        }
    }
    for count in [0, 1, 510, 511, 512, 513, 1_000, 2_045] {
        texts.push(format!("{HEAD}steps:\n{}", " - a:\n".repeat(count)));
        texts.push(format!("{HEAD}steps: [{}]", "{a:}".repeat(count)));
        texts.push(format!("{HEAD}steps:\n{}", " - a: 1 # c\n\n".repeat(count)));
    }
    // A record that is longer than its tree.
    texts.push(format!("{HEAD}steps: [{}]", "{a:}".repeat(16_000)));
}

/// Keys that read like messages of the Rust: the table of messages must not fall for them.
fn imitations(texts: &mut Vec<String>) {
    let parts = [
        "x` has no `:`", "x` appears twice in the same mapping", "tags` is a sequence, saw null",
        "steps` is a sequence, saw ", "schema` must be `", "defaults.timeout` is a duration",
        "repeat` needs `steps`", "expect` is a mapping of the answer's fields, saw ",
        "expect` asserts a command's answer, and `", "step 7: a step has exactly one command key",
        "x` is not a scenario@1 step key; did you mean `", "defaults.settle` is not supported",
    ];
    for part in parts {
        texts.push(format!("{{\"{part}\""));
        texts.push(format!("{{\"{part}\": 1, \"{part}\": 2}}"));
        texts.push(format!("{HEAD}\"{part}\": 1"));
        texts.push(format!("{HEAD}defaults: {{\"{part}\": 1}}"));
        texts.push(format!("{HEAD}steps: [{{\"{part}\": 1, \"{part}.\": 1}}]"));
        texts.push(format!("{HEAD}steps:\n - \"{part}\": 1"));
        texts.push(format!("{HEAD}steps:\n - repeat: {{steps: [{{\"{part}\": 1}}]}}"));
    }
}

/// 2: what RFC 3629 refuses, and its neighbours that it allows.
fn no_utf8(texts: &mut Vec<Vec<u8>>) {
    let sequences: &[&[u8]] = &[
        b"\x7f", b"\x80", b"\xbf", b"\xc0\x80", b"\xc1\xbf", b"\xc2", b"\xc2\x7f", b"\xc2\x80",
        b"\xc2\xc0", b"\xdf\xbf", b"\xe0\x80\x80", b"\xe0\x9f\xbf", b"\xe0\xa0\x80", b"\xe0\xa0",
        b"\xec\xbf\xbf", b"\xed\x9f\xbf", b"\xed\xa0\x80", b"\xed\xbf\xbf", b"\xee\x80\x80",
        b"\xef\xbf\xbf", b"\xef\xbb\xbf", b"\xf0\x80\x80\x80", b"\xf0\x8f\xbf\xbf",
        b"\xf0\x90\x80\x80", b"\xf0\x90\x80", b"\xf3\xbf\xbf\xbf", b"\xf4\x8f\xbf\xbf",
        b"\xf4\x90\x80\x80", b"\xf5\x80\x80\x80", b"\xff", b"\xfe", b"\xf8\x88\x80\x80\x80",
    ];
    for sequence in sequences {
        for (start, end) in
            [("", ""), ("a: ", "\n"), ("\"", "\""), ("[", "]"), ("# ", ""), ("\t", "")]
        {
            texts.push([start.as_bytes(), sequence, end.as_bytes()].concat());
        }
    }
}
