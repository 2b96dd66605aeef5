//! Functions and structs as a source file declares them for C, in one form
//! whatever its language: types as Rust has them, a slice as a pointer and a
//! length.

mod c;

pub use c::of_c;

/// A name and a type.
pub type Named = (String, String);

/// A declared function.
#[derive(Debug, Clone, PartialEq, Eq, PartialOrd, Ord)]
pub struct Function {
    pub name: String,
    /// Each parameter's name and type, in order.
    pub parameters: Vec<Named>,
    pub result: String,
}

/// A declared struct.
#[derive(Debug, Clone, PartialEq, Eq, PartialOrd, Ord)]
pub struct Struct {
    pub name: String,
    /// Each field's name and type, in order.
    pub fields: Vec<Named>,
}

/// What a source declares for C, each kind by name.
#[derive(Debug, Clone, PartialEq, Eq)]
pub struct Declared {
    pub functions: Vec<Function>,
    pub structs: Vec<Struct>,
}

impl Declared {
    fn sorted(mut functions: Vec<Function>, mut structs: Vec<Struct>) -> Declared {
        functions.sort();
        structs.sort();
        Declared { functions, structs }
    }
}

/// What a struct that is laid out as C lays it out stands behind.
const LAID_OUT: &str = "#[repr(C)]";
/// What a function for C starts with in Rattle.
const EXTERN: &str = "extern \"C\" fn ";

/// What C sees of Rattle sources: its functions without contracts and bodies, and
/// its structs.
pub fn seen_by_c(source: &str) -> String {
    let source = without_line_comments(source);
    let functions = source.split(EXTERN).skip(1);
    let functions = functions.map(|text| format!("{EXTERN}{}\n", before(text, &["ensures", "{"])));
    let structs = source.split(LAID_OUT).skip(1);
    let structs = structs.map(|text| format!("{LAID_OUT}{}}}\n", before(text, &["}"])));
    functions.chain(structs).collect()
}

fn before<'a>(text: &'a str, ends: &[&str]) -> &'a str {
    let places = ends.iter().filter_map(|end| text.find(end));
    places.min().map_or(text, |place| &text[..place])
}

/// The functions and structs in [what C sees](seen_by_c) of Rattle sources.
pub fn of_rattle(seen: &str) -> Declared {
    let functions = seen.split(EXTERN).skip(1);
    let functions = functions.map(|text| function(before(text, &[LAID_OUT]), rattle_parameter));
    Declared::sorted(functions.collect(), structs(seen))
}

/// The functions that a Rust source declares in its block for C, and its structs.
pub fn of_rust(source: &str) -> Declared {
    let source = without_line_comments(source);
    let (_, block) = source.split_once("extern \"C\" {").expect("a block");
    let (block, _) = block.split_once('}').expect("the block's end");
    let declared = block.split("fn ").skip(1);
    let functions = declared.map(|text| function(text, rust_parameter));
    Declared::sorted(functions.collect(), structs(&source))
}

fn without_line_comments(source: &str) -> String {
    let code = |line: &'_ str| line.split("//").next().unwrap_or_default().to_string();
    source.lines().map(code).collect::<Vec<_>>().join("\n")
}

/// The structs that are laid out as C lays them out, in Rust or Rattle.
fn structs(source: &str) -> Vec<Struct> {
    let laid_out = source.split(LAID_OUT).skip(1);
    let declared = laid_out.map(|text| text.split_once("struct ").expect("a struct").1);
    let declared = declared.map(|text| {
        let (name, rest) = text.split_once('{').expect("fields");
        let (fields, _) = rest.split_once('}').expect("the fields' end");
        let fields = names_and_types(fields);
        let fields = fields.map(|(name, kind)| {
            let name = name.strip_prefix("pub ").expect("a public field");
            (field_name(name), type_name(kind))
        });
        Struct {
            name: name.trim().to_string(),
            fields: fields.collect(),
        }
    });
    declared.collect()
}

/// A field may be `new` in Rattle, which is a word of C++: there it is
/// `new_value`, and in Rust as in C.
fn field_name(name: &str) -> String {
    name.strip_suffix("_value").unwrap_or(name).to_string()
}

/// Each name and type in a list of them, as Rust and Rattle write it.
fn names_and_types(list: &str) -> impl Iterator<Item = (&str, &str)> {
    let listed = list.split(',').filter(|one| !one.trim().is_empty());
    let parted = listed.map(|one| one.split_once(':').expect("a name and a type"));
    parted.map(|(name, kind)| (name.trim(), kind.trim()))
}

/// A type without the crate that it is from.
fn type_name(kind: &str) -> String {
    let last = kind.rsplit("::").next();
    last.unwrap_or(kind).to_string()
}

/// A function from `name(parameters) -> result` on, as Rust and Rattle have it.
/// A parameter may stand for several.
fn function(text: &str, parameter: fn(&str, &str) -> Vec<Named>) -> Function {
    let (name, rest) = text.split_once('(').expect("parameters");
    let (parameters, rest) = rest.split_once(')').expect("the parameters' end");
    let result = match rest.trim_start().strip_prefix("->") {
        Some(rest) => rest.split_whitespace().next().expect("a result"),
        None => "()",
    };
    let parameters = names_and_types(parameters);
    Function {
        name: name.trim().to_string(),
        parameters: parameters
            .flat_map(|(name, kind)| parameter(name, kind))
            .collect(),
        result: type_name(result.trim_end_matches(';')),
    }
}

fn rust_parameter(name: &str, kind: &str) -> Vec<Named> {
    vec![(name.to_string(), kind.to_string())]
}

fn rattle_parameter(name: &str, kind: &str) -> Vec<Named> {
    let (lent, pointer) = match (kind.strip_prefix("&mut "), kind.strip_prefix('&')) {
        (Some(lent), _) => (lent, "*mut"),
        (None, Some(lent)) => (lent, "*const"),
        (None, None) => return vec![(name.to_string(), type_name(kind))],
    };
    let slice = lent
        .strip_prefix('[')
        .and_then(|rest| rest.strip_suffix(']'));
    let to = type_name(slice.unwrap_or(lent));
    let at = (name.to_string(), format!("{pointer} {to}"));
    let length = (format!("{name}_length"), "usize".to_string());
    match slice {
        Some(_) => vec![at, length],
        None => vec![at],
    }
}
