//! The prototypes of the C interface in the library's source, in the C header
//! and in ffi.rs: that all three have the same functions, each with the same
//! names, order, types and constness of its parameters and the same answer, and
//! that a record has the same fields. Then the comparison itself is tried: on
//! every prototype wrong in every way, in each of the files, and on texts that
//! it must refuse because it cannot read them. It is the text that is changed.

#[path = "common/prototypes.rs"]
mod prototypes;
use prototypes::{Parameter, Place, Prototype, Reading, Record, Refused, Spot, Word};
use std::collections::{BTreeMap, BTreeSet};
use std::fs;
use std::ops::Range;

/// The three files with functions, as paths from the root of the repository.
const FILES: [&str; 3] = [
    "crates/celerycrag_c/src/lib.rt",
    "include/celerycrag.h",
    "rust/celerycrag/src/ffi.rs",
];
const LIBRARY: usize = 0;
const HEADER: usize = 1;
const FFI: usize = 2;

/// Those with a record.
const RECORD_FILES: [&str; 3] = [
    "crates/records/src/lib.rt",
    "include/celerycrag.h",
    "rust/celerycrag/src/ledger.rs",
];

fn text(path: &str) -> String {
    let root = concat!(env!("CARGO_MANIFEST_DIR"), "/../..");
    let path = format!("{root}/{path}");
    fs::read_to_string(&path).unwrap_or_else(|error| panic!("{path}: {error}"))
}

fn read(file: usize, text: &str) -> Result<Reading, Refused> {
    match file {
        LIBRARY => prototypes::library(text),
        HEADER => prototypes::header(text).map(|(reading, _)| reading),
        _ => prototypes::ffi(text),
    }
}

fn read_record(file: usize, text: &str) -> Result<Record, Refused> {
    match file {
        HEADER => prototypes::header(text).map(|(_, record)| record),
        _ => prototypes::record(RECORD_FILES[file], text),
    }
}

/// What the files are found to say; a text that cannot be read fails here.
fn readings() -> [Reading; 3] {
    [LIBRARY, HEADER, FFI].map(|file| match read(file, &text(FILES[file])) {
        Ok(reading) => reading,
        Err(refused) => panic!("{refused}"),
    })
}

/// The first parameter or the answer in which two prototypes differ.
fn difference(one: &Prototype, other: &Prototype) -> Option<String> {
    let length = one.parameters.len().max(other.parameters.len());
    for place in 0..length {
        let pair = [one, other].map(|prototype| prototype.parameters.get(place));
        if pair[0] != pair[1] {
            let [one, other] = pair.map(|parameter: Option<&Parameter>| match parameter {
                Some(Parameter { name, passed, word }) => format!("{name}, {passed:?} {word:?}"),
                None => "none".to_string(),
            });
            let number = place + 1;
            return Some(format!("parameter {number} is {one}, and {other}"));
        }
    }
    let (one, other) = (one.answer, other.answer);
    (one != other).then(|| format!("the answer is {one:?}, and {other:?}"))
}

/// The functions that are not in all three files, once in each and alike, with
/// what is wrong.
fn differences(readings: [&Reading; 3]) -> BTreeMap<String, String> {
    let functions = readings.iter().flat_map(|reading| &reading.functions);
    let names: BTreeSet<&String> = functions.map(|function| &function.name).collect();
    let mut found = BTreeMap::new();
    for name in names {
        let of = |reading: &Reading| -> Vec<Prototype> {
            let functions = reading.functions.iter();
            functions.filter(|one| one.name == *name).cloned().collect()
        };
        let all = readings.map(of);
        for file in [LIBRARY, HEADER, FFI] {
            let wrong = match (&all[file][..], &all[LIBRARY][..]) {
                ([one], [first]) => difference(first, one)
                    .map(|what| format!("in {} and {}: {what}", FILES[LIBRARY], FILES[file])),
                ([_], _) => None,
                (others, _) => Some(format!("{} times in {}", others.len(), FILES[file])),
            };
            if let Some(wrong) = wrong {
                found.entry(name.clone()).or_insert(wrong);
            }
        }
    }
    found
}

#[test]
fn the_prototypes_agree() {
    let readings = readings();
    for (reading, file) in readings.iter().zip(FILES) {
        let count = reading.functions.len();
        assert!(count >= 17, "{count} functions in {file}");
        for Prototype {
            name, parameters, ..
        } in &reading.functions
        {
            assert!(name.starts_with("celery_"), "{name} in {file}");
            assert!(parameters.len() >= 13, "{name} in {file} lacks the plan");
        }
    }
    let differences = differences(readings.each_ref());
    assert!(differences.is_empty(), "{differences:#?}");
}

/// The header says the stack of each call, and include/test_stack.c measures it.
#[test]
fn every_call_has_its_stack() {
    let (header, measured) = (text(FILES[HEADER]), text("include/test_stack.c"));
    for Prototype { name, .. } in &readings()[HEADER].functions {
        let short = name.trim_start_matches("celery_");
        let upper = short.to_uppercase();
        assert!(
            header.contains(&format!("CELERY_STACK_{upper} = ")),
            "{name}"
        );
        assert!(
            measured.contains(&format!("CALL({short}, {upper}, PLAN")),
            "{name}"
        );
        assert!(measured.contains(&format!("&call_{short},")), "{name}");
    }
}

#[test]
fn the_records_agree() {
    let read = |file: usize| read_record(file, &text(RECORD_FILES[file]));
    let records = [0, 1, 2].map(|file| read(file).unwrap_or_else(|refused| panic!("{refused}")));
    assert_eq!(records[0].fields.len(), 2);
    for (record, file) in records.iter().zip(RECORD_FILES) {
        assert_eq!(record.fields, records[0].fields, "{file}");
    }
}

/// A wrong version of a text, with the functions in which it must be found
/// wrong.
struct Wrong {
    way: &'static str,
    text: String,
    found_in: BTreeSet<String>,
}

/// The text with other words in these places, which are in order.
fn with(text: &str, changes: &[(Range<usize>, &str)]) -> String {
    let (mut changed, mut at) = (String::new(), 0);
    for (place, words) in changes {
        changed += &text[at..place.start];
        changed += words;
        at = place.end;
    }
    changed + &text[at..]
}

/// How a file spells the words, in the order of `Word::ALL`, and a pointer that
/// is const and one that is not.
fn spelling(file: usize) -> ([&'static str; 4], [&'static str; 2]) {
    match file {
        LIBRARY => (["u8", "u16", "usize", "Record"], ["&", "&mut "]),
        HEADER => (
            ["uint8_t", "uint16_t", "size_t", "struct celery_record"],
            ["const ", ""],
        ),
        _ => (["u8", "u16", "usize", "Record"], ["*const ", "*mut "]),
    }
}

/// A text with one list of parameters or fields wrong in every way.
fn wrong_lists(
    file: usize,
    text: &str,
    spots: &[Spot],
    between: &str,
) -> Vec<(&'static str, String)> {
    let (words, [constant, mutable]) = spelling(file);
    let mut all = Vec::new();
    for pair in spots.windows(2) {
        let exchanged = |[one, other]: [&Range<usize>; 2]| {
            let changes = [
                (one.clone(), &text[other.clone()]),
                (other.clone(), &text[one.clone()]),
            ];
            with(text, &changes)
        };
        if let [Some(one), Some(other)] = [&pair[0].name, &pair[1].name] {
            all.push(("names exchanged", exchanged([one, other])));
        }
        all.push((
            "neighbours exchanged",
            exchanged([&pair[0].whole, &pair[1].whole]),
        ));
    }
    for (place, spot) in spots.iter().enumerate() {
        let whole = &text[spot.whole.clone()];
        let put = |place: &Range<usize>, words: &str| with(text, &[(place.clone(), words)]);
        let start = spot.whole.start..spot.whole.start;
        // With what separates it from the one behind or before it.
        let dropped = match (spots.get(place + 1), place.checked_sub(1)) {
            (Some(next), _) => spot.whole.start..next.whole.start,
            (None, Some(before)) => spots[before].whole.end..spot.whole.end,
            (None, None) => spot.whole.clone(),
        };
        all.push(("one dropped", put(&dropped, "")));
        all.push(("one doubled", put(&start, &format!("{whole}{between} "))));
        let (Some(name), Some(word)) = (&spot.name, &spot.word) else {
            continue;
        };
        let named = &text[name.clone()];
        all.push(("renamed", put(name, &format!("{named}_"))));
        if let Some(of) = named.strip_suffix("_len") {
            all.push(("a length renamed", put(name, of)));
            all.push(("a length renamed", put(name, &format!("{of}_size"))));
        }
        for (other, spelled) in Word::ALL.into_iter().zip(words) {
            // A record goes by a pointer alone.
            if other != Word::Record || spot.pointer.is_some() {
                all.push(("another width", put(word, spelled)));
            }
        }
        if let Some(constness) = &spot.constness {
            let is_const = text[constness.clone()].trim() == constant.trim();
            let other = if is_const { mutable } else { constant };
            all.push(("const or not", put(constness, other)));
        }
        let other = "a pointer or none";
        match &spot.pointer {
            // A slice becomes a pointer to one; else the pointer goes, but that
            // of a record.
            Some(_) if whole.contains('[') => {
                let one = whole.replace(['[', ']'], "");
                all.push((other, put(&spot.whole, &one)));
            }
            Some(_) if text[word.clone()] == *words[3] => {}
            Some(pointer) if file == HEADER => {
                let constness = spot.constness.clone().unwrap_or_default();
                let none = [(constness, ""), (pointer.clone(), "")];
                all.push((other, with(text, &none)));
            }
            Some(pointer) => all.push((other, put(pointer, ""))),
            None if file == HEADER => all.push((other, put(name, &format!("*{named}")))),
            None => {
                let number = &text[word.clone()];
                all.push((other, put(word, &format!("{constant}{number}"))));
                all.push((other, put(word, &format!("{mutable}{number}"))));
                if file == LIBRARY {
                    all.push((other, put(word, &format!("&[{number}]"))));
                }
            }
        }
    }
    all
}

/// A text wrong in every way, one at a time.
fn wrong_versions(file: usize, text: &str, reading: &Reading) -> Vec<Wrong> {
    let names = reading
        .functions
        .iter()
        .map(|function| function.name.clone());
    let every: BTreeSet<String> = names.collect();
    let (words, _) = spelling(file);
    let mut all = Vec::new();
    let mut add = |way, text, found_in| {
        all.push(Wrong {
            way,
            text,
            found_in,
        })
    };
    for Place {
        owner,
        whole,
        name,
        answer,
        spots,
    } in &reading.places
    {
        let found_in = match owner {
            Some(owner) => BTreeSet::from([owner.clone()]),
            None => every.clone(),
        };
        for (way, wrong) in wrong_lists(file, text, spots, ",") {
            add(way, wrong, found_in.clone());
        }
        for spelled in words {
            if let Some(answer) = answer {
                let wrong = with(text, &[(answer.clone(), spelled)]);
                add("another answer", wrong, found_in.clone());
            }
        }
        if let (Some(owner), Some(whole), Some(name)) = (owner, whole, name) {
            let function = &text[whole.clone()];
            add(
                "a function dropped",
                with(text, &[(whole.clone(), "")]),
                found_in.clone(),
            );
            let twice = format!("{function}\n{function}");
            add(
                "a function doubled",
                with(text, &[(whole.clone(), &twice)]),
                found_in.clone(),
            );
            let other = format!("{owner}s");
            let renamed = with(text, &[(name.clone(), &other)]);
            add(
                "a function renamed",
                renamed,
                BTreeSet::from([owner.clone(), other]),
            );
        }
    }
    // Two functions by each other's names; those that take the same by other
    // names are told apart by these.
    let named = reading.places.iter().filter_map(|place| place.name.clone());
    let named: Vec<Range<usize>> = named.collect();
    for pair in named.windows(2) {
        let [one, other] = [0, 1].map(|place| &text[pair[place].clone()]);
        let wrong = with(text, &[(pair[0].clone(), other), (pair[1].clone(), one)]);
        let found_in = [one, other].map(str::to_string);
        add("functions exchanged", wrong, BTreeSet::from(found_in));
    }
    all
}

/// How often each way was tried in each file.
#[derive(Default)]
struct Tried(BTreeMap<(&'static str, &'static str), usize>);

impl Tried {
    fn count(&mut self, way: &'static str, file: &'static str) {
        *self.0.entry((way, file)).or_default() += 1;
    }

    /// Prints the counts, and fails where a way was tried less often than is
    /// known.
    fn at_least<const N: usize>(
        &self,
        known: [(&'static str, [usize; 3]); N],
        files: [&'static str; 3],
    ) {
        let ways: BTreeSet<&str> = self.0.keys().map(|&(way, _)| way).collect();
        assert_eq!(ways, BTreeSet::from(known.map(|(way, _)| way)));
        for (way, least) in known {
            let counts = files.map(|file| self.0.get(&(way, file)).copied().unwrap_or(0));
            println!("{way}: {counts:?}");
            let enough = counts
                .iter()
                .zip(least)
                .all(|(&count, least)| count >= least);
            assert!(enough, "{way}: tried {counts:?} times, and not {least:?}");
        }
        println!("{} wrong versions", self.0.values().sum::<usize>());
    }
}

/// Every wrong version is read, and found wrong in the function that is wrong
/// there, and in no other.
#[test]
fn wrong_prototypes_are_found() {
    let readings = readings();
    let mut tried = Tried::default();
    for file in [LIBRARY, HEADER, FFI] {
        let right = text(FILES[file]);
        for Wrong {
            way,
            text,
            found_in,
        } in wrong_versions(file, &right, &readings[file])
        {
            // To exchange what is the same, or to put what stands there, is
            // nothing wrong.
            if text == right {
                continue;
            }
            let at_fault = || {
                let pairs = right.lines().zip(text.lines());
                let line = pairs.take_while(|(one, other)| one == other).count();
                format!("{way}, {}, line {}", FILES[file], line + 1)
            };
            let mut changed = readings.each_ref();
            let reading =
                read(file, &text).unwrap_or_else(|refused| panic!("{}: {refused}", at_fault()));
            changed[file] = &reading;
            let found: BTreeSet<String> = differences(changed).into_keys().collect();
            assert_eq!(found, found_in, "{}", at_fault());
            tried.count(way, FILES[file]);
        }
    }
    tried.at_least(
        [
            ("names exchanged", [184, 72, 72]),
            ("neighbours exchanged", [184, 88, 72]),
            ("one dropped", [201, 106, 89]),
            ("one doubled", [201, 106, 89]),
            ("renamed", [201, 89, 89]),
            // The library's source has slices, with lengths of their own.
            ("a length renamed", [0, 64, 64]),
            ("another width", [511, 223, 223]),
            ("const or not", [109, 45, 45]),
            ("a pointer or none", [385, 87, 131]),
            // In ffi.rs all functions share it.
            ("another answer", [51, 51, 3]),
            ("a function dropped", [17; 3]),
            ("a function doubled", [17; 3]),
            ("a function renamed", [17; 3]),
            ("functions exchanged", [16; 3]),
        ],
        FILES,
    );
}

/// The same of the record's fields.
#[test]
fn wrong_records_are_found() {
    let mut tried = Tried::default();
    for (file, path) in RECORD_FILES.into_iter().enumerate() {
        let right = text(path);
        let Record { fields, spots } = read_record(file, &right).expect("a record");
        let between = if file == HEADER { ";" } else { "," };
        for (way, wrong) in wrong_lists(file, &right, &spots, between) {
            // A field that is a pointer is not read.
            if wrong == right || way == "a pointer or none" {
                continue;
            }
            let record =
                read_record(file, &wrong).unwrap_or_else(|refused| panic!("{way}: {refused}"));
            assert_ne!(record.fields, fields, "{way}, {path}");
            tried.count(way, path);
        }
    }
    tried.at_least(
        [
            ("names exchanged", [1; 3]),
            ("neighbours exchanged", [1; 3]),
            ("one dropped", [2; 3]),
            ("one doubled", [2; 3]),
            ("renamed", [2; 3]),
            ("another width", [4; 3]),
        ],
        RECORD_FILES,
    );
}

/// A text with one thing in it that a reader does not know: each is refused with
/// its line, and not passed over.
#[test]
fn what_cannot_be_read_is_refused() {
    // What stands in the text, where it is first, and what is put there.
    let library = [
        ("#[unsafe(no_mangle)]\npub extern", "pub extern"),
        ("pub extern \"C\" fn", "extern \"C\" fn"),
        ("pub extern \"C\" fn", "pub fn"),
        ("pub extern \"C\" fn", "pub unsafe extern \"C\" fn"),
        (
            "#[unsafe(no_mangle)]",
            "pub fn celery_helper() -> u8 { 0 }\n#[unsafe(no_mangle)]",
        ),
        ("#[unsafe(no_mangle)]", "#[inline]\n#[unsafe(no_mangle)]"),
        ("#[unsafe(no_mangle)]", "type usize = u8;\n#[unsafe(no_mangle)]"),
        ("use records::Record;", "use other::Record;"),
        ("use records::Record;", "use records::Record as Record;"),
        ("fn celery_check(", "fn celery_check<T>("),
        ("p: usize", "p: u32"),
        ("p: usize", "p: bool"),
        ("p: usize", "mut p: usize"),
        ("p: usize", "p: Record"),
        ("p: usize", "P: usize"),
        ("p: usize", "usize"),
        ("p: usize,", "p: usize"),
        ("radices: &[u8]", "radices: &'a [u8]"),
        ("radices: &[u8]", "radices: [u8]"),
        ("radices: &[u8]", "radices: [u8; 4]"),
        ("radices: &[u8]", "radices: &[u8; 4]"),
        ("radices: &[u8]", "radices: &&[u8]"),
        ("radices: &[u8]", "radices: *const u8"),
        ("d: &[u8],\n) -> u8", "d: &[u8],\n)"),
        ("d: &[u8],\n) -> u8", "d: &[u8],\n) -> (u8, u8)"),
        ("d: &[u8],\n) -> u8", "d: &[u8],\n) -> &u8"),
    ];
    let header = [
        ("uint8_t celery_check(", "int celery_check("),
        ("uint8_t celery_check(", "static uint8_t celery_check("),
        ("uint8_t celery_check(", "extern uint8_t celery_check("),
        ("uint8_t celery_check(", "const uint8_t celery_check("),
        ("uint8_t celery_check(", "uint8_t *celery_check("),
        (
            "uint8_t celery_check(",
            "typedef int celery_int;\nuint8_t celery_check(",
        ),
        (
            "uint8_t celery_check(",
            "int celery_count;\nuint8_t celery_check(",
        ),
        ("celery_check(CELERY_PLAN);", "celery_check(CELERY_PLAN)"),
        (
            "celery_check(CELERY_PLAN);",
            "celery_check(CELERY_PLAN, ...);",
        ),
        ("celery_check(CELERY_PLAN);", "celery_check(CELERY_PLANS);"),
        ("celery_check(CELERY_PLAN);", "celery_check(void);"),
        (
            "celery_check(CELERY_PLAN);",
            "celery_check(CELERY_PLAN) { return 0; }",
        ),
        ("uint8_t *row,", "uint8_t **row,"),
        ("uint8_t *row,", "uint8_t row[],"),
        ("uint8_t *row,", "uint8_t *const row,"),
        ("uint8_t *row,", "uint8_t const *row,"),
        ("uint8_t *row,", "uint8_t *restrict row,"),
        ("uint8_t *row,", "uint8_t *,"),
        ("uint8_t *row,", "unsigned char *row,"),
        ("uint8_t *row,", "void *row,"),
        ("uint8_t *row,", "CELERY_BYTES row,"),
        ("size_t entry,", "const size_t entry,"),
        ("size_t entry,", "uint32_t entry,"),
        ("size_t entry,", "struct celery_record entry,"),
        ("size_t entry,", "struct celery_other *entry,"),
        ("#define CELERY_PLAN ", "#define CELERY_PLAN() "),
        (
            "#define CELERY_PLAN ",
            "#define CELERY_PLAN size_t p\n#define CELERY_PLAN ",
        ),
        ("#define CELERY_PLAN ", "#define CELERY_OTHER_PLAN "),
        (
            "#include <stddef.h>",
            "#include <stddef.h>\n#define size_t uint8_t",
        ),
        (
            "#include <stddef.h>",
            "#include <stddef.h>\n#undef CELERY_PLAN",
        ),
        ("#include <stddef.h>", "#include <stddef.h>\n#if 0"),
        ("#include <stddef.h>", "#include \"other.h\""),
        (
            "#include <stddef.h>",
            "#ifndef CELERYCRAG_H\n#include <stddef.h>",
        ),
        ("#include <stddef.h>", "#include <stddef.h>\n#endif"),
        (
            "#include <stddef.h>",
            "#include <stddef.h> #define CELERY_X",
        ),
        (
            "extern \"C\" {",
            "extern \"C\" { uint8_t celery_more(void);",
        ),
        ("struct celery_record {", "struct celery_records {"),
        ("uint16_t entry;", "uint16_t entry : 12;"),
        ("uint16_t entry;", "uint16_t *entry;"),
        ("uint16_t entry;", "uint32_t entry;"),
    ];
    let ffi = [
        ("use crate::Record;", "use crate::Other as Record;"),
        ("use crate::Record;", "use crate::Record;\ntype Byte = u8;"),
        ("extern \"C\" {", "extern \"Rust\" {"),
        ("pub(crate) fn", "pub(crate) unsafe fn"),
        ("p: usize,", "p: u32,"),
        ("p: usize,", "p: usize, ..,"),
        ("radices: *const u8", "radices: *const *const u8"),
        ("radices: *const u8", "radices: &u8"),
        ("radices: *const u8", "radices: * u8"),
        ("radices: *const u8", "radices: Option<&u8>"),
        (") -> u8;)*", ");)*"),
        (") -> u8;)*", ") -> i32;)*"),
        ("$($own: $type),*", "$($own: *const $type),*"),
        ("celery_check();", "celery_check()"),
        ("celery_check();", "#[cfg(unix)] celery_check();"),
        ("celery_check();", "}\ncalls! { celery_check();"),
        ("entry: usize", "entry: Record"),
        ("calls! {", "extern \"C\" { fn celery_more(); }\ncalls! {"),
    ];
    let refused = |file: &str,
                   right: &str,
                   cases: &[(&str, &str)],
                   read: &dyn Fn(&str) -> Option<Refused>| {
        assert_eq!(read(right), None, "{file}");
        for (from, to) in cases {
            assert!(right.contains(from), "{file} has no {from}");
            let refused = read(&right.replacen(from, to, 1));
            let refused = refused.unwrap_or_else(|| panic!("{file} is read with {to}"));
            assert!(refused.contains(", line "), "{refused}");
        }
        cases.len()
    };
    let mut count = 0;
    for (file, cases) in [(LIBRARY, &library[..]), (HEADER, &header), (FFI, &ffi)] {
        let right = text(FILES[file]);
        count += refused(FILES[file], &right, cases, &|text| read(file, text).err());
    }
    let record = [
        ("#[repr(C)]\n", ""),
        ("#[repr(C)]", "#[repr(C, packed)]"),
        ("#[repr(C)]", "#[repr(align(8))]\n#[repr(C)]"),
        ("pub struct Record {", "struct Record {"),
        ("pub struct Record {", "pub struct Records {"),
        ("pub struct Record {", "pub struct Record<T> {"),
        ("pub entry: u16", "entry: u16"),
        ("pub entry: u16", "pub entry: u32"),
        ("pub entry: u16", "pub entry: [u16; 2]"),
    ];
    for file in [LIBRARY, FFI] {
        let right = text(RECORD_FILES[file]);
        let read = |text: &str| read_record(file, text).err();
        count += refused(RECORD_FILES[file], &right, &record, &read);
        let twice = right.clone()
            + "\nmod other {\n    pub struct Record {\n        pub entry: u16,\n    }\n}\n";
        assert!(read(&twice).is_some());
    }
    println!("{count} texts refused");
}
