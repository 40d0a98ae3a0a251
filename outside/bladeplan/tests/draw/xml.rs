//! A small checker of XML 1.0, as far as our drawings use it: tags that nest, attributes given once and quoted, the five entities, no
//! character that XML has no room for. It gives the elements back.

pub struct Element {
    pub name: String,
    pub attributes: Vec<(String, String)>,
    /// The text directly within.
    pub text: String,
    /// The place of the element around it.
    pub within: Option<usize>,
}

impl Element {
    pub fn get(&self, name: &str) -> &str {
        self.attributes.iter().find(|(given, _)| given == name).map_or("", |(_, value)| value)
    }
}

/// The elements of a document in order; or what is wrong with it.
pub fn parse(document: &str) -> Result<Vec<Element>, String> {
    if let Some(bad) = document.chars().find(|c| !allowed(*c)) {
        return Err(format!("the character {bad:?}"));
    }
    let (mut elements, mut open): (Vec<Element>, Vec<usize>) = (Vec::new(), Vec::new());
    let mut rest = document;
    while let Some(at) = rest.find('<') {
        let text = plain(&rest[..at])?;
        match open.last() {
            Some(last) => elements[*last].text += &text,
            None if text.trim().is_empty() => {}
            None => return Err(format!("text outside: {text}")),
        }
        let end = rest[at..].find('>').ok_or("a tag without an end")? + at;
        tag(&rest[at + 1..end], &mut elements, &mut open)?;
        rest = &rest[end + 1..];
    }
    let roots = elements.iter().filter(|element| element.within.is_none()).count();
    match open.is_empty() && rest.trim().is_empty() && roots == 1 {
        true => unique(elements),
        false => Err("not one element around all, or one without an end".to_string()),
    }
}

fn tag(text: &str, elements: &mut Vec<Element>, open: &mut Vec<usize>) -> Result<(), String> {
    if let Some(name) = text.strip_prefix('/') {
        let last = open.pop().ok_or(format!("</{name}> without a beginning"))?;
        return if elements[last].name == name { Ok(()) } else { Err(format!("</{name}> ends <{}>", elements[last].name)) };
    }
    let (text, closed) = text.strip_suffix('/').map_or((text, false), |text| (text, true));
    let (name, list) = text.split_once(' ').unwrap_or((text, ""));
    if name.is_empty() || !name.chars().all(|c| c.is_ascii_alphanumeric()) {
        return Err(format!("the name <{name}>"));
    }
    let within = open.last().copied();
    elements.push(Element { name: name.to_string(), attributes: attributes(list)?, text: String::new(), within });
    if !closed {
        open.push(elements.len() - 1);
    }
    Ok(())
}

fn attributes(list: &str) -> Result<Vec<(String, String)>, String> {
    let mut all: Vec<(String, String)> = Vec::new();
    let mut rest = list;
    while !rest.trim().is_empty() {
        let (name, after) = rest.split_once("=\"").ok_or(format!("no attribute: {rest}"))?;
        let (value, after) = after.split_once('"').ok_or(format!("no end: {after}"))?;
        let name = name.trim_start();
        let good = !name.is_empty() && name.chars().all(|c| c.is_ascii_alphanumeric() || c == '-' || c == ':');
        if !good || all.iter().any(|(other, _)| other == name) || !(after.is_empty() || after.starts_with(' ')) {
            return Err(format!("the attribute {name}"));
        }
        all.push((name.to_string(), plain(value)?));
        rest = after;
    }
    Ok(all)
}

/// Text with its entities replaced.
fn plain(text: &str) -> Result<String, String> {
    let mut out = String::new();
    let mut rest = text;
    while let Some(at) = rest.find('&') {
        out += &rest[..at];
        let (entity, after) = rest[at + 1..].split_once(';').ok_or("an & without a ;")?;
        out.push(match entity {
            "amp" => '&',
            "lt" => '<',
            "gt" => '>',
            "quot" => '"',
            "#39" => '\'',
            other => return Err(format!("&{other};")),
        });
        rest = after;
    }
    Ok(out + rest)
}

fn allowed(c: char) -> bool {
    matches!(c, '\n' | '\u{20}'..='\u{7E}' | '\u{A0}'..='\u{FFFD}' | '\u{10000}'..)
}

fn unique(elements: Vec<Element>) -> Result<Vec<Element>, String> {
    let mut ids: Vec<&str> = elements.iter().map(|element| element.get("id")).filter(|id| !id.is_empty()).collect();
    let count = ids.len();
    ids.sort_unstable();
    ids.dedup();
    if ids.len() == count {
        Ok(elements)
    } else {
        Err("an id given twice".to_string())
    }
}

#[test]
fn what_is_no_xml_is_seen() {
    assert!(parse("<a b=\"1\" c=\"&lt;\">x &amp; y<d/></a>\n").is_ok());
    let bad = [
        "<a>",
        "<a></b>",
        "<a b=1/>",
        "<a b=\"1\" b=\"2\"/>",
        "<a>&x;</a>",
        "<a>& </a>",
        "<a/><b/>",
        "x<a/>",
        "<a>\u{1}</a>",
        "<a b=\"1\"c=\"2\"/>",
    ];
    for document in bad {
        assert!(parse(document).is_err(), "{document}");
    }
    assert!(parse("<a><b id=\"x\"/><c id=\"x\"/></a>").is_err());
}
