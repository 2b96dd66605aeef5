//! What a C header declares.

use super::{field_name, Declared, Function, Named, Struct};

/// What the header's names start with.
const PREFIX: &str = "muntyzhap_";
/// What ends a line that goes on in the next.
const CONTINUED: &str = "\\\n";

/// The functions that a C header declares, and its structs.
pub fn of_c(header: &str) -> Declared {
    let header = header.replace(CONTINUED, "");
    let header = without_directives(&without_block_comments(&header));
    let header = header.replace("extern \"C\" {", "");
    let (structs, rest) = structs_and_rest(&header);
    let rest = rest.replace('}', "");
    let declared = rest.split(';').map(str::trim);
    let declared = declared.filter(|text| !text.is_empty() && !text.starts_with("typedef "));
    Declared::sorted(declared.map(function).collect(), structs)
}

fn without_block_comments(source: &str) -> String {
    let mut parts = source.split("/*");
    let first = parts.next().unwrap_or_default().to_string();
    let after = |part: &'_ str| {
        part.split_once("*/")
            .expect("a comment's end")
            .1
            .to_string()
    };
    parts.map(after).fold(first, |code, part| code + &part)
}

fn without_directives(source: &str) -> String {
    let lines = source.lines();
    let kept = lines.filter(|line| !line.trim_start().starts_with('#'));
    kept.collect::<Vec<_>>().join("\n")
}

/// The structs that are declared with their fields, and the text without them.
fn structs_and_rest(header: &str) -> (Vec<Struct>, String) {
    let (mut structs, mut rest, mut left) = (vec![], String::new(), header);
    while let Some((part, after)) = left.split_once("};") {
        let (head, fields) = part.split_once('{').expect("fields");
        let (before, name) = head.rsplit_once("struct ").expect("a struct");
        let fields = fields.split(';').filter(|text| !text.trim().is_empty());
        let fields = fields.map(name_and_type);
        structs.push(Struct {
            name: struct_name(name.trim()),
            fields: fields
                .map(|(name, kind)| (field_name(&name), kind))
                .collect(),
        });
        rest += before;
        left = after;
    }
    (structs, rest + left)
}

/// `muntyzhap_entry` as `Entry`.
fn struct_name(name: &str) -> String {
    let name = name.strip_prefix(PREFIX).expect("the prefix");
    let (first, rest) = name.split_at(1);
    first.to_uppercase() + rest
}

fn function(text: &str) -> Function {
    let (head, parameters) = text.split_once('(').expect("parameters");
    let (name, result) = name_and_type(head);
    let parameters = match parameters.trim().trim_end_matches(')') {
        "void" => vec![],
        some => some.split(',').map(name_and_type).collect(),
    };
    Function {
        name,
        parameters,
        result,
    }
}

/// `const uint8_t *name` as a name and a type of Rust.
fn name_and_type(text: &str) -> Named {
    let spaced = text.replace('*', " * ");
    let mut words: Vec<&str> = spaced.split_whitespace().collect();
    let name = words.pop().expect("a name");
    let kind = match words.as_slice() {
        ["const", to @ .., "*"] => format!("*const {}", type_name(to)),
        [to @ .., "*"] => format!("*mut {}", type_name(to)),
        plain => type_name(plain),
    };
    (name.to_string(), kind)
}

fn type_name(words: &[&str]) -> String {
    match words {
        ["uint8_t"] => "u8".to_string(),
        ["uint32_t"] => "u32".to_string(),
        ["uint64_t"] => "u64".to_string(),
        ["size_t"] => "usize".to_string(),
        ["struct", name] => struct_name(name),
        other => panic!("no such type: {other:?}"),
    }
}
