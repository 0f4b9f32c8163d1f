//! That `include/lookahead.h` and `include/lookahead.rs` declare the library as
//! it is: the exported functions with the names, the order and the types of their
//! parameters, the structs that they take and answer, and the constants. What
//! both files have to say is worked out from the source, and looked up in them as
//! text; besides it they may have their frame alone. A form that there is no rule
//! for is an error.

use std::collections::{BTreeMap, BTreeSet};
use std::fs;
use std::path::PathBuf;

#[path = "../../../include/lookahead.rs"]
mod declared;

const EXPORTS: &str = "crates/lookahead_c/src";
const CERTIFY: &str = "crates/lookahead_c/src/certify.rt";
const PARAMETER_NUMBERS: &str = "crates/lookahead_c/src/parameters.rt";
const READ: &str = "crates/lookahead_c/src/read.rt";
const WRITE: &str = "crates/lookahead_c/src/write.rt";
const IMPORT: &str = "crates/lookahead_c/src/import.rt";
const POOL: &str = "crates/lookahead_c/src/pool.rt";
const NUMBERING: &str = "crates/lookahead_c/src/numbering.rt";
const REFUSAL_NUMBERS: &str = "crates/lookahead_c/src/refusal.rt";
const REFUSALS: &str = "crates/training_file/src/refusal.rt";
const PARAMETERS: &str = "crates/training_file/src/parameters.rt";
const ITEM: &str = "crates/training_file/src/item.rt";
const LAYOUT: &str = "crates/training_file/src/layout.rt";
const ROW: &str = "crates/writing/src/row.rt";
const HEADER: &str = "include/lookahead.h";
const DECLARATIONS: &str = "include/lookahead.rs";

/// What stands in both files around the declarations.
const FRAME: Declared<&str> = Declared {
    c: "#ifndef LOOKAHEAD_H #define LOOKAHEAD_H #include <stddef.h> #include <stdint.h>
        #ifdef __cplusplus extern \"C\" { #endif #ifdef __cplusplus } #endif #endif",
    rust: "#![allow(dead_code)] extern \"C\" { }",
};

/// Ahead of every struct for Rust.
const DERIVED: &str = "#[derive(Clone, Copy, Debug, PartialEq, Eq)]";

/// The numbers of Rattle, which have the same names in Rust, and those of C.
const NUMBERS: [(&str, &str); 9] = [
    ("u8", "uint8_t"),
    ("u16", "uint16_t"),
    ("u32", "uint32_t"),
    ("u64", "uint64_t"),
    ("i8", "int8_t"),
    ("i16", "int16_t"),
    ("i32", "int32_t"),
    ("i64", "int64_t"),
    ("usize", "size_t"),
];

/// The types of Rattle that are a struct for C and for Rust.
const STRUCTS: [(&str, &str, &str); 4] = [
    ("RefusalNumbers", "lookahead_answer", "LookaheadAnswer"),
    (
        "ParameterNumbers",
        "lookahead_parameters",
        "LookaheadParameters",
    ),
    ("ReadAnswer", "lookahead_reading", "LookaheadReading"),
    (A_ROW, "lookahead_item", "LookaheadItem"),
];

/// An array in Rattle, which C can't take by value.
const A_ROW: &str = "Row";

/// The one parameter with another name in the header: `class` is a keyword of C++.
const PARAMETERS_IN_C: [(&str, &str); 1] = [("class", "class_answer")];

/// The fields with other names in both files.
const FIELDS: [(&str, &str); 2] = [("at", "record"), ("refusal", "answer")];

/// The constants and variants with other names in both files. All names are in
/// capitals there, after `LOOKAHEAD_`, and those of refusals after `REFUSED_` too.
const CONSTANTS: [(&str, &str); 6] = [
    ("MAX_RECORDS", "MOST_ITEMS"),
    ("FEATURE_COUNT", "FEATURES"),
    ("FILE_LENGTH", "LENGTH"),
    ("LIST_LENGTH", "COUNT"),
    ("MULTIPLIER", "CEILING"),
    ("WORD_FEATURE", "FEATURE"),
];

/// The texts of the files, by their paths.
type Texts = BTreeMap<String, String>;

/// What the header has to declare, and what the file for Rust has to.
#[derive(PartialEq, Eq, PartialOrd, Ord)]
struct Declared<Text = String> {
    c: Text,
    rust: Text,
}

fn texts() -> Texts {
    let root = PathBuf::from(concat!(env!("CARGO_MANIFEST_DIR"), "/../.."));
    let exports = fs::read_dir(root.join(EXPORTS)).expect("a folder");
    let exports = exports.map(|entry| {
        let name = entry.expect("a name").file_name();
        format!("{EXPORTS}/{}", name.to_string_lossy())
    });
    let others = [
        REFUSALS,
        PARAMETERS,
        ITEM,
        LAYOUT,
        ROW,
        HEADER,
        DECLARATIONS,
    ];
    exports
        .chain(others.map(String::from))
        .map(|path| {
            let text = fs::read_to_string(root.join(&path)).expect("a text");
            (path, text)
        })
        .collect()
}

/// A text without comments, with one space before and after each word and each
/// sign, and without a comma ahead of a closing bracket.
fn plain(text: &str) -> String {
    let mut spaced = String::new();
    let mut rest = text;
    while !rest.is_empty() {
        let comment = rest.find("//").into_iter().chain(rest.find("/*")).min();
        let (code, after) = rest.split_at(comment.unwrap_or(rest.len()));
        for sign in code.chars() {
            if sign.is_alphanumeric() || sign == '_' {
                spaced.push(sign);
            } else {
                spaced.extend([' ', sign, ' ']);
            }
        }
        spaced.push(' ');
        let end = if after.starts_with("//") { "\n" } else { "*/" };
        rest = after.split_once(end).map_or("", |(_, rest)| rest);
    }
    let words: Vec<&str> = spaced.split_whitespace().collect();
    format!(" {} ", words.join(" "))
        .replace(" , ) ", " ) ")
        .replace(" , } ", " } ")
}

/// What stands beside a name in a list, or the name itself.
fn renamed<'a>(name: &'a str, list: &[(&str, &'a str)]) -> &'a str {
    let found = list.iter().find(|(from, _)| *from == name);
    found.map_or(name, |(_, to)| to)
}

/// A number or a struct, by its name in the source.
fn named(name: &str) -> Result<Declared<&str>, String> {
    let number = NUMBERS.iter().find(|(rust, _)| *rust == name);
    let number = number.map(|&(rust, c)| Declared { c, rust });
    let of_name = STRUCTS.iter().find(|(rattle, ..)| *rattle == name);
    let of_name = of_name.map(|&(_, c, rust)| Declared { c, rust });
    let unknown = || format!("no rule for the type `{name}`");
    number.or(of_name).ok_or_else(unknown)
}

/// A parameter: a value, or a pointer, and for a slice its length besides.
fn parameter(source: &str) -> Result<Vec<Declared>, String> {
    let unknown = || format!("no rule for the parameter `{source}`");
    let (name, shape) = source.split_once(" : ").ok_or_else(unknown)?;
    let shape: Vec<&str> = shape.split(' ').collect();
    let (of_type, is_slice, c, star, rust) = match shape[..] {
        ["&", "[", of_type, "]"] => (of_type, true, "const ", "*", "*const "),
        ["&", "mut", "[", of_type, "]"] => (of_type, true, "", "*", "*mut "),
        ["&", "mut", of_type] => (of_type, false, "", "*", "*mut "),
        [of_type] if of_type != A_ROW => (of_type, false, "", "", ""),
        _ => return Err(unknown()),
    };
    let of_type = named(of_type)?;
    let c_name = renamed(name, &PARAMETERS_IN_C);
    let mut declared = vec![Declared {
        c: format!("{c}{} {star}{c_name}", of_type.c),
        rust: format!("{name}: {rust}{}", of_type.rust),
    }];
    if is_slice {
        declared.push(Declared {
            c: format!("size_t {c_name}_len"),
            rust: format!("{name}_len: usize"),
        });
    }
    Ok(declared)
}

/// A function, from the source after `#[unsafe(no_mangle)]`.
fn function(source: &str) -> Result<Declared, String> {
    let (signature, rest) = source
        .strip_prefix("pub extern \" C \" fn ")
        .and_then(|rest| rest.split_once(" ) - > "))
        .ok_or_else(|| {
            let start: String = source.chars().take(80).collect();
            format!("no rule for the function that begins `{start}`")
        })?;
    let unknown = || format!("no rule for the function `{signature}`");
    let (name, parameters) = signature.split_once(" ( ").ok_or_else(unknown)?;
    let (answer, _) = rest.split_once(' ').ok_or_else(unknown)?;
    let answer = named(answer)?;
    let mut c = Vec::new();
    let mut rust = Vec::new();
    for source in parameters.split(" , ") {
        for declared in parameter(source)? {
            c.push(declared.c);
            rust.push(declared.rust);
        }
    }
    let (c, rust) = (c.join(", "), rust.join(", "));
    Ok(Declared {
        c: format!("{} {name}({c});", answer.c),
        rust: format!("pub fn {name}({rust}) -> {};", answer.rust),
    })
}

/// The functions that a file exports.
fn functions(source: &str) -> Result<Vec<Declared>, String> {
    let parts = source.split(" # [ unsafe ( no_mangle ) ] ").skip(1);
    let functions: Vec<Declared> = parts.map(function).collect::<Result<_, _>>()?;
    if source.matches(" extern ").count() != functions.len() {
        return Err("no rule for `extern` without `#[unsafe(no_mangle)]`".to_string());
    }
    Ok(functions)
}

/// A struct, from the source after `#[repr(C)]`, which may derive that it is
/// copied.
fn structure(source: &str) -> Result<Declared, String> {
    let (name, fields) = source
        .trim_start_matches("# [ derive ( Clone , Copy ) ] ")
        .strip_prefix("pub struct ")
        .and_then(|rest| rest.split_once(" } "))
        .and_then(|(rest, _)| rest.split_once(" { "))
        .ok_or("no rule for `#[repr(C)]` without a public struct")?;
    let name = named(name)?;
    let mut c = String::new();
    let mut rust = Vec::new();
    for field in fields.split(" , ") {
        let (name, of_type) = field
            .strip_prefix("pub ")
            .and_then(|field| field.split_once(" : "))
            .ok_or_else(|| format!("no rule for the field `{field}`"))?;
        let (name, of_type) = (renamed(name, &FIELDS), named(of_type)?);
        c += &format!("{} {name}; ", of_type.c);
        rust.push(format!("pub {name}: {}", of_type.rust));
    }
    let rust = rust.join(", ");
    Ok(Declared {
        c: format!("typedef struct {{ {c}}} {};", name.c),
        rust: format!("#[repr(C)] pub struct {} {{ {rust} }}", name.rust),
    })
}

/// The structs of a file, which are all for C.
fn structures(source: &str) -> Result<Vec<Declared>, String> {
    let parts = source.split(" # [ repr ( C ) ] ").skip(1);
    let structures: Vec<Declared> = parts.map(structure).collect::<Result<_, _>>()?;
    if source.matches(" struct ").count() != structures.len() {
        return Err("no rule for a struct without `#[repr(C)]`".to_string());
    }
    Ok(structures)
}

/// The struct that stands for a row, its features and then its label, with the
/// assertions that nothing stands between them.
fn item(texts: &Texts) -> Result<Declared, String> {
    let features = number_of(texts, ITEM, "FEATURE_COUNT")?;
    let bytes = features + 1;
    let row =
        "pub const ROW_LENGTH: usize = Item::FEATURE_COUNT + 1; pub type Row = [i8; ROW_LENGTH];";
    if !plain(&texts[ROW]).contains(&plain(row)) {
        return Err(format!("{ROW} has no row of {bytes} signed bytes"));
    }
    let asserted = |word: &str| {
        format!(
            "{word}(sizeof(lookahead_item) == {bytes}, \"an item has no gap\");
            {word}(offsetof(lookahead_item, label) == {features}, \"its label is last\");"
        )
    };
    let (in_cpp, in_c) = (asserted("static_assert"), asserted("_Static_assert"));
    Ok(Declared {
        c: format!(
            "typedef struct {{ int8_t features[LOOKAHEAD_FEATURES]; int8_t label; }} lookahead_item;
            #ifdef __cplusplus {in_cpp} #elif __STDC_VERSION__ >= 201112L {in_c} #endif"
        ),
        rust: format!(
            "#[repr(C)] pub struct LookaheadItem {{
                pub features: [i8; LOOKAHEAD_FEATURES], pub label: i8
            }}
            const _: () = assert!(std::mem::size_of::<LookaheadItem>() == {bytes});
            const _: () = assert!(std::mem::align_of::<LookaheadItem>() == 1);"
        ),
    })
}

/// A name in capitals, with `_` between the words of a variant.
fn capitals(name: &str) -> String {
    let mut capitals = String::new();
    let mut after_small = false;
    for sign in name.chars() {
        if after_small && sign.is_uppercase() {
            capitals.push('_');
        }
        after_small = sign.is_lowercase();
        capitals.extend(sign.to_uppercase());
    }
    capitals
}

/// A constant of the source, or a variant that it numbers.
fn constant(before: &str, name: &str, of_type: &str, number: &str) -> Declared {
    let name = capitals(name);
    let name = renamed(&name, &CONSTANTS);
    Declared {
        c: format!("#define LOOKAHEAD_{before}{name} {number}"),
        rust: format!("pub const LOOKAHEAD_{before}{name}: {of_type} = {number};"),
    }
}

/// The name and the type of each public constant of a source, and the first
/// number in its value.
fn constants_of(source: &str) -> Vec<[String; 3]> {
    let source = plain(source);
    let parts = source.split(" pub const ").skip(1);
    parts
        .map(|part| {
            let words: Vec<&str> = part.split(' ').collect();
            let number = words[4..].iter().find(|word| word.parse::<u64>().is_ok());
            [words[0], words[2], number.unwrap_or(&"?")].map(String::from)
        })
        .collect()
}

/// The variants that a source numbers in a `match`, each with its number.
fn numbered(source: &str) -> Vec<[String; 2]> {
    let source = plain(source);
    let arms: Vec<&str> = source.split(" = > ").collect();
    let numbered = arms.windows(2).filter_map(|arm| {
        let pattern = arm[0].rsplit([',', '{', '}']).next()?;
        let (_, variant) = pattern.rsplit_once(" : : ")?;
        let number = arm[1].split(' ').next()?;
        number.parse::<u64>().ok()?;
        let variant = variant.split(' ').next()?;
        Some([variant, number].map(String::from))
    });
    numbered.collect()
}

/// The number of a public constant of a file.
fn number_of(texts: &Texts, path: &str, wanted: &str) -> Result<usize, String> {
    let constants = constants_of(&texts[path]);
    let found = constants.iter().find(|[name, ..]| name == wanted);
    let number = found.and_then(|[_, _, number]| number.parse().ok());
    number.ok_or_else(|| format!("{path} has no number `{wanted}`"))
}

/// The length of a file of the most items.
fn most_file(texts: &Texts) -> Result<Declared, String> {
    let header = number_of(texts, LAYOUT, "HEADER_LENGTH")?;
    let record = number_of(texts, LAYOUT, "RECORD_LENGTH")?;
    let length = format!("{header} + {record} * LOOKAHEAD_MOST_ITEMS");
    Ok(Declared {
        c: format!("#define LOOKAHEAD_MOST_FILE ({length})"),
        rust: format!("pub const LOOKAHEAD_MOST_FILE: usize = {length};"),
    })
}

/// The most items, how many features there are, the refusals, the kernels, the
/// labels, the endings and the classes. A label's number is that of its class.
fn constants(texts: &Texts) -> Vec<Declared> {
    let mut constants = Vec::new();
    for [name, number] in numbered(&texts[REFUSALS]) {
        constants.push(constant("REFUSED_", &name, "u8", &number));
    }
    for [name, of_type, number] in [PARAMETERS, ITEM]
        .into_iter()
        .flat_map(|path| constants_of(&texts[path]))
    {
        if of_type == "u8" || name == "MAX_RECORDS" || name == "FEATURE_COUNT" {
            constants.push(constant("", &name, &of_type, &number));
        }
    }
    for [name, number] in numbered(&texts[NUMBERING]) {
        constants.push(constant("", &name, "u8", &number));
    }
    constants
}

/// All that both files have to declare.
fn wanted(texts: &Texts) -> Result<BTreeSet<Declared>, String> {
    let mut wanted = BTreeSet::from([item(texts)?, most_file(texts)?]);
    wanted.extend(constants(texts));
    for (path, source) in texts {
        let source = plain(source);
        let error = |error| format!("{path}: {error}");
        if path.starts_with(EXPORTS) {
            wanted.extend(functions(&source).map_err(error)?);
            wanted.extend(structures(&source).map_err(error)?);
        }
    }
    Ok(wanted)
}

/// That a file has each declaration once, and nothing else beside its frame.
fn has<'a>(
    path: &str,
    text: &str,
    wanted: impl Iterator<Item = &'a String>,
    frame: &str,
) -> Result<(), String> {
    let mut rest = plain(text);
    for declaration in wanted {
        let declaration = plain(declaration);
        if !rest.contains(&declaration) {
            return Err(format!("{path} has no `{declaration}`"));
        }
        rest = rest.replacen(&declaration, " ", 1);
    }
    if rest != plain(frame) {
        return Err(format!(
            "{path} has, beside what the source has, `{rest}`, and not `{frame}`"
        ));
    }
    Ok(())
}

/// That both files declare what the source has, and nothing else.
fn check(texts: &Texts) -> Result<(), String> {
    let wanted = wanted(texts)?;
    let declarations = texts[DECLARATIONS].replace(DERIVED, "");
    let (c, rust) = (wanted.iter().map(|w| &w.c), wanted.iter().map(|w| &w.rust));
    has(HEADER, &texts[HEADER], c, FRAME.c)?;
    has(DECLARATIONS, &declarations, rust, FRAME.rust)
}

#[test]
fn the_library_is_declared_as_it_is() {
    if let Err(difference) = check(&texts()) {
        panic!("{difference}");
    }
}

/// An item in Rust is a row: sixteen features and then the label.
#[test]
fn the_label_of_an_item_is_its_last_byte() {
    let item = declared::LookaheadItem {
        features: [0; declared::LOOKAHEAD_FEATURES],
        label: 0,
    };
    let start = &item as *const _ as usize;
    assert_eq!(&item.features as *const _ as usize, start);
    assert_eq!(&item.label as *const _ as usize, start + 16);
}

/// Wrong texts: the file, what it has, and what it has instead.
#[rustfmt::skip]
const WRONG: [(&str, &str, &str); 69] = [
    // Two parameters exchanged.
    (CERTIFY, "lower: &mut i64,\n    upper: &mut i64", "upper: &mut i64,\n    lower: &mut i64"),
    (HEADER, "int64_t *lower, int64_t *upper", "int64_t *upper, int64_t *lower"),
    (DECLARATIONS, "lower: *mut i64,\n        upper: *mut i64", "upper: *mut i64,\n        lower: *mut i64"),
    (CERTIFY, "file: &[u8],\n    multipliers: &[u32]", "multipliers: &[u32],\n    file: &[u8]"),
    (WRITE, "output: &mut [u8],\n    length: &mut usize", "length: &mut usize,\n    output: &mut [u8]"),
    (IMPORT, "text: &[u8],\n    output: &mut [u8]", "output: &mut [u8],\n    text: &[u8]"),
    (POOL, "older: &[u8],\n    newer: &[u8]", "newer: &[u8],\n    older: &[u8]"),
    (HEADER, "lookahead_pool(const uint8_t *older, size_t older_len", "lookahead_pool(size_t older_len, const uint8_t *older"),
    (DECLARATIONS, "older: *const u8,\n        older_len: usize", "newer: *const u8,\n        newer_len: usize"),
    // Another type.
    (CERTIFY, "lower: &mut i64", "lower: &mut u64"),
    (CERTIFY, "multipliers: &[u32]", "multipliers: &mut [u32]"),
    (HEADER, "const uint32_t *multipliers", "uint32_t *multipliers"),
    (HEADER, "uint16_t *order", "uint8_t *order"),
    (DECLARATIONS, "steps: *mut u32", "steps: *mut u64"),
    (DECLARATIONS, "word: *const i8", "word: *mut i8"),
    (WRITE, "items: &[Row]", "items: &mut [Row]"),
    (WRITE, "items: &[Row]", "items: &[i8]"),
    (HEADER, "const lookahead_item *items", "const int8_t *items"),
    (DECLARATIONS, "items: *const LookaheadItem", "items: *const i8"),
    (IMPORT, "text: &[u8]", "text: &mut [u8]"),
    (HEADER, "const uint8_t *text", "const char *text"),
    (DECLARATIONS, "text: *const u8", "text: *mut u8"),
    (POOL, "newer: &[u8]", "newer: &mut [u8]"),
    (HEADER, "const uint8_t *older", "uint8_t *older"),
    (DECLARATIONS, "newer: *const u8", "newer: *mut u8"),
    // A struct by value, and one that is lent.
    (WRITE, "parameters: ParameterNumbers", "parameters: &mut ParameterNumbers"),
    (HEADER, "lookahead_parameters parameters,", "lookahead_parameters *parameters,"),
    (DECLARATIONS, "parameters: LookaheadParameters,\n        items", "parameters: *mut LookaheadParameters,\n        items"),
    (DECLARATIONS, "parameters: LookaheadParameters,\n        text", "parameters: *mut LookaheadParameters,\n        text"),
    // Another answer.
    (READ, "-> ReadAnswer", "-> RefusalNumbers"),
    (HEADER, "lookahead_reading lookahead_read(", "lookahead_answer lookahead_read("),
    (DECLARATIONS, "-> LookaheadReading", "-> LookaheadAnswer"),
    (CERTIFY, "-> RefusalNumbers", "-> u8"),
    // The fields of a struct exchanged, or of another type or name.
    (HEADER, "uint8_t number;\n    uint16_t record;", "uint16_t record;\n    uint8_t number;"),
    (DECLARATIONS, "pub number: u8,\n    pub record: u16,", "pub record: u16,\n    pub number: u8,"),
    (REFUSAL_NUMBERS, "pub number: u8", "pub number: u16"),
    (REFUSAL_NUMBERS, "#[repr(C)]", ""),
    (DECLARATIONS, "#[repr(C)]", ""),
    (PARAMETER_NUMBERS, "pub grid: u32", "pub units: u32"),
    (PARAMETER_NUMBERS, "pub tolerance: u64", "pub tolerance: u32"),
    (PARAMETER_NUMBERS, "#[repr(C)]", ""),
    (HEADER, "uint32_t ceiling;\n    uint32_t second_ceiling;", "uint32_t second_ceiling;\n    uint32_t ceiling;"),
    (READ, "pub items: usize", "pub items: u16"),
    (DECLARATIONS, "pub items: usize,\n    pub parameters: LookaheadParameters,", "pub parameters: LookaheadParameters,\n    pub items: usize,"),
    // An item and a row.
    (ROW, "FEATURE_COUNT + 1;", "FEATURE_COUNT + 2;"),
    (ROW, "[i8; ROW_LENGTH]", "[u8; ROW_LENGTH]"),
    (HEADER, "int8_t features[LOOKAHEAD_FEATURES];\n    int8_t label;", "int8_t label;\n    int8_t features[LOOKAHEAD_FEATURES];"),
    (DECLARATIONS, "pub label: i8", "pub label: u8"),
    // A function that is declared nowhere, in one file alone, or not exported.
    (CERTIFY, "#[unsafe(no_mangle)]", "#[unsafe(no_mangle)] pub extern \"C\" fn other(file: &[u8]) -> RefusalNumbers { }\n#[unsafe(no_mangle)]"),
    (HEADER, "lookahead_reading lookahead_read(", "lookahead_reading lookahead_other("),
    (DECLARATIONS, "pub fn lookahead_read(", "pub fn lookahead_other("),
    (HEADER, "#ifdef __cplusplus\n}", "void other(void);\n#ifdef __cplusplus\n}"),
    (CERTIFY, "#[unsafe(no_mangle)]", ""),
    // Forms that there is no rule for.
    (CERTIFY, "multipliers: &[u32]", "multipliers: &[[i8; 17]]"),
    (WRITE, "items: &[Row]", "items: Row"),
    (READ, "#[repr(C)]", "pub struct Other { pub items: usize }\n#[repr(C)]"),
    // Constants.
    (HEADER, "LOOKAHEAD_STUCK 2", "LOOKAHEAD_STUCK 3"),
    (HEADER, "LOOKAHEAD_STUCK 2", "LOOKAHEAD_STUCK 2\n#define LOOKAHEAD_OTHER 2"),
    (REFUSALS, "NextMet(_) => 16", "NextMet(_) => 17"),
    (HEADER, "LOOKAHEAD_REFUSED_OUTPUT 10", "LOOKAHEAD_REFUSED_OUTPUT 17"),
    (HEADER, "LOOKAHEAD_REFUSED_TEXT 11", "LOOKAHEAD_REFUSED_TEXT 12"),
    (REFUSALS, "Lines => 12", "Lines => 13"),
    (HEADER, "LOOKAHEAD_REFUSED_UNLIKE 14", "LOOKAHEAD_REFUSED_UNLIKE 15"),
    (DECLARATIONS, "LOOKAHEAD_REFUSED_POOL: u8 = 15", "LOOKAHEAD_REFUSED_POOL: u8 = 14"),
    (REFUSALS, "Unlike => 14", "Unlike => 13"),
    (REFUSALS, "Pool => 15", "Pool => 1"),
    (ITEM, "PASSED_OVER: u8 = 2", "PASSED_OVER: u8 = 3"),
    (DECLARATIONS, "LOOKAHEAD_FEATURES: usize = 16", "LOOKAHEAD_FEATURES: usize = 17"),
    (LAYOUT, "RECORD_LENGTH: usize = 20", "RECORD_LENGTH: usize = 24"),
];

#[test]
fn wrong_declarations_are_found() {
    for (path, old, new) in WRONG {
        let mut texts = texts();
        let text = texts.get_mut(path).expect("a file");
        assert!(text.contains(old), "{path} has no `{old}`");
        *text = text.replacen(old, new, 1);
        assert!(check(&texts).is_err(), "{path} may have `{new}`");
    }
}
