//! Bytes of a note or of a file's name as text for a page: what is no text is shown by its number, nothing is dropped, and nothing is markup.

/// Bytes as text. A byte that is no UTF-8, and a character that can't be seen or would turn its line round, is shown as ‹its number›.
pub fn shown(bytes: &[u8]) -> String {
    let mut text = String::new();
    for chunk in bytes.utf8_chunks() {
        for c in chunk.valid().chars() {
            match c {
                c if unseen(c) && u32::from(c) < 256 => text += &format!("‹{:02X}›", u32::from(c)),
                c if unseen(c) => text += &format!("‹U+{:04X}›", u32::from(c)),
                c => text.push(c),
            }
        }
        chunk.invalid().iter().for_each(|byte| text += &format!("‹{byte:02X}›"));
    }
    text
}

/// Controls, marks of direction, line ends, and the code points that XML has no room for.
fn unseen(c: char) -> bool {
    let turning = matches!(c, '\u{61C}' | '\u{200B}'..='\u{200F}' | '\u{2028}'..='\u{202E}' | '\u{2060}'..='\u{2069}' | '\u{FEFF}');
    let nothing = u32::from(c) & 0xFFFE == 0xFFFE || matches!(c, '\u{FDD0}'..='\u{FDEF}');
    c.is_control() || turning || nothing
}

/// Text as it stands between tags or in a quoted attribute.
pub fn escaped(text: &str) -> String {
    let mut out = String::with_capacity(text.len());
    for c in text.chars() {
        match c {
            '&' => out += "&amp;",
            '<' => out += "&lt;",
            '>' => out += "&gt;",
            '"' => out += "&quot;",
            '\'' => out += "&#39;",
            c => out.push(c),
        }
    }
    out
}

/// A number with a comma at each thousand.
pub fn grouped(n: usize) -> String {
    let digits = n.to_string();
    let mut out = String::new();
    for (i, digit) in digits.chars().enumerate() {
        if i > 0 && (digits.len() - i) % 3 == 0 {
            out.push(',');
        }
        out.push(digit);
    }
    out
}

/// How many of a thing, the word in the singular for one.
pub fn many(n: usize, one: &str, more: &str) -> String {
    format!("{} {}", grouped(n), if n == 1 { one } else { more })
}

/// A length as short as it can be: two decimals at most, no minus before a zero.
pub fn short(x: f64) -> String {
    trimmed(format!("{x:.2}"))
}

/// A place that may be looked at from very near: seven decimals at most.
pub fn exact(x: f64) -> String {
    trimmed(format!("{x:.7}"))
}

fn trimmed(text: String) -> String {
    let text = text.trim_end_matches('0').trim_end_matches('.');
    if text == "-0" {
        "0".to_string()
    } else {
        text.to_string()
    }
}

/// How wide a text is, about: over-estimated rather than under, in parts of its size.
pub fn breadth(text: &str) -> f64 {
    text.chars()
        .map(|c| match c {
            'i' | 'j' | 'l' | 'I' | '.' | ',' | ';' | ':' | '\'' | '|' | '!' => 0.29,
            'f' | 't' | 'r' | ' ' | '-' | '(' | ')' | '[' | ']' | '/' | '‹' | '›' => 0.35,
            'm' | 'w' | 'M' | 'W' | '@' | '%' => 0.92,
            'A'..='Z' => 0.72,
            '\0'..='\u{2FF}' => 0.57,
            _ => 1.0,
        })
        .sum()
}

/// A text in one line no wider than this many parts of its size: its beginning, and a mark that there is more, where it is longer.
pub fn cut(text: &str, width: f64) -> String {
    match breadth(text) <= width {
        true => text.to_string(),
        false => wrapped(text, width - breadth("…")).swap_remove(0) + "…",
    }
}

/// A text in lines no wider than this many parts of its size: broken at blanks, and within a word that is wider itself.
pub fn wrapped(text: &str, width: f64) -> Vec<String> {
    let mut lines = vec![String::new()];
    for word in text.split(' ') {
        let line = lines.len() - 1;
        let joined = if lines[line].is_empty() { word.to_string() } else { format!("{} {word}", lines[line]) };
        if breadth(&joined) <= width {
            lines[line] = joined;
            continue;
        }
        if !lines[line].is_empty() {
            lines.push(String::new());
        }
        for c in word.chars() {
            let line = lines.len() - 1;
            lines[line].push(c);
            if breadth(&lines[line]) > width {
                lines[line].pop();
                lines.push(c.to_string());
            }
        }
    }
    lines
}

#[cfg(test)]
mod tests {
    use super::*;

    #[test]
    fn what_is_no_text_is_shown() {
        assert_eq!(shown(b"pit \xFF\x00<b>\r"), "pit ‹FF›‹00›<b>‹0D›");
        assert_eq!(shown("Grübchen \u{202E}\u{FFFE}".as_bytes()), "Grübchen ‹U+202E›‹U+FFFE›");
        assert_eq!(escaped("<b> & \"c\" 'd'"), "&lt;b&gt; &amp; &quot;c&quot; &#39;d&#39;");
    }

    #[test]
    fn numbers_are_short() {
        assert_eq!([0.0, -0.001, 1.5, -2.0, 10.126].map(short), ["0", "0", "1.5", "-2", "10.13"]);
        assert_eq!([7, 1000, 65536, 1234567].map(grouped), ["7", "1,000", "65,536", "1,234,567"]);
    }

    #[test]
    fn wrapping_keeps_every_letter() {
        let text = "a note with one verylongwordthatcannotstandinaline and an end";
        let lines = wrapped(text, 8.0);
        assert!(lines.iter().all(|line| breadth(line) <= 8.0));
        assert_eq!(lines.concat().replace(' ', ""), text.replace(' ', ""));
    }
}
