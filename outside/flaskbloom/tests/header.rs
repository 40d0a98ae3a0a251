//! The declarations of src/raw.rs, and the exported functions of the library's source, are include/flaskbloom.h's, function by function:
//! names, order and types of parameters. Nothing else checks either.

/// The text between `from` and `to` without comments, cut into functions: names and parameters without blanks.
fn functions(text: &str, ends: &str) -> Vec<(String, Vec<String>)> {
    let mut list = Vec::new();
    for piece in text.split(ends) {
        let Some((head, rest)) = piece.split_once('(') else { continue };
        let Some(name) = head.split(|c: char| !c.is_alphanumeric() && c != '_').filter(|word| word.starts_with("fb_")).next_back() else {
            continue;
        };
        let inside = rest.split(')').next().expect("a part");
        let parameters = inside.split(',').map(|p| p.split_whitespace().collect::<Vec<_>>().join(" ")).filter(|p| !p.is_empty());
        list.push((name.to_string(), parameters.collect()));
    }
    list
}

/// A C parameter as Rust writes it.
fn in_rust(c: &str) -> String {
    let (words, is_array) = (c.replace('*', "* "), c.contains('['));
    let words: Vec<&str> = words.split(|c: char| c == ' ' || c == '[').filter(|w| !w.is_empty() && !w.ends_with(']')).collect();
    let is_const = words.contains(&"const");
    let is_pointer = words.contains(&"*") || is_array;
    let plain: Vec<&&str> = words.iter().filter(|w| **w != "const" && **w != "*").collect();
    let kind = match *plain[0] {
        "uint8_t" => "u8",
        "int32_t" => "i32",
        "uint32_t" => "u32",
        "uint64_t" => "u64",
        "size_t" => "usize",
        "double" => "f64",
        other => panic!("an unknown type: {other}"),
    };
    let pointer = match (is_pointer, is_const) {
        (false, _) => "",
        (true, true) => "*const ",
        (true, false) => "*mut ",
    };
    format!("{}: {pointer}{kind}", plain[1])
}

fn without_comments(text: &str) -> String {
    let mut out = String::new();
    let mut rest = text;
    while let Some((before, after)) = rest.split_once("/*") {
        out.push_str(before);
        rest = after.split_once("*/").map_or("", |(_, after)| after);
    }
    out + rest
}

fn header() -> Vec<(String, Vec<String>)> {
    let in_c = functions(&without_comments(include_str!("../../../include/flaskbloom.h")), ";");
    in_c.into_iter().map(|(name, list)| (name, list.iter().map(|p| in_rust(p)).collect())).collect()
}

#[test]
fn raw_is_the_header() {
    let raw = include_str!("../src/raw.rs");
    assert_eq!(header().len(), 24);
    assert_eq!(functions(raw.split_once("extern").expect("the block").1, ";"), header());
}

/// A parameter of a Rattle function as C's caller sees it: a slice is a pointer and its length, a reference a pointer.
fn seen_from_c(parameter: &str, without_table: bool) -> Vec<String> {
    let (name, kind) = parameter.split_once(": ").expect("a name and a type");
    let Some(behind) = kind.strip_prefix('&') else { return vec![parameter.to_string()] };
    let (pointer, behind) = behind.strip_prefix("mut ").map_or(("*const", behind), |rest| ("*mut", rest));
    let element = behind.trim_matches(['[', ']']).split(';').next().expect("a part");
    let length = match name {
        "points" if without_table => "point_count".to_string(),
        "centres" | "points" => "count".to_string(),
        "pairs" => "pair_count".to_string(),
        "answers" | "records" => "room".to_string(),
        _ => format!("{name}_len"),
    };
    let is_slice = behind.starts_with('[') && !behind.contains(';');
    [format!("{name}: {pointer} {element}")].into_iter().chain(is_slice.then(|| format!("{length}: usize"))).collect()
}

#[test]
fn the_library_is_the_header() {
    let source = [
        include_str!("../../../crates/flaskbloom/src/points.rt"),
        include_str!("../../../crates/flaskbloom/src/meshes.rt"),
        include_str!("../../../crates/flaskbloom/src/files.rt"),
        include_str!("../../../crates/flaskbloom/src/vertices.rt"),
    ]
    .concat();
    let exported = source.split("#[unsafe(no_mangle)]").skip(1).map(|text| text.split_once("ensures").expect("a promise").0);
    let mut found: Vec<(String, Vec<String>)> = Vec::new();
    for text in exported {
        assert!(text.contains("pub extern \"C\" fn") && text.trim_end().ends_with("-> u8"), "{text}");
        let (name, list) = functions(text, "->").remove(0);
        let without_table = list.iter().any(|p| p.starts_with("pairs"));
        found.push((name, list.iter().flat_map(|p| seen_from_c(p, without_table)).collect()));
    }
    let mut wanted = header();
    found.sort();
    wanted.sort();
    assert_eq!(found, wanted);
}
