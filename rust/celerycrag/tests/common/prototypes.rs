//! Prototypes as texts: what the functions of the C interface are called, take
//! and answer, read from the library's source, from the C header and from the
//! wrapper's ffi.rs, and the fields of a record. A reader takes its file whole
//! and refuses what it does not know, so that nothing is passed over.
//! `prototypes.rs` takes this file by its path, since it needs nothing else here.

use std::ops::Range;

/// What a parameter is, or points to.
#[derive(Clone, Copy, Debug, PartialEq, Eq)]
pub enum Word {
    U8,
    U16,
    Usize,
    Record,
}

impl Word {
    pub const ALL: [Word; 4] = [Word::U8, Word::U16, Word::Usize, Word::Record];
}

/// How it is passed: by itself, or by a pointer that is const or not.
#[derive(Clone, Copy, Debug, PartialEq, Eq)]
pub enum Passed {
    Value,
    Const,
    Mut,
}

#[derive(Clone, Debug, PartialEq, Eq)]
pub struct Parameter {
    pub name: String,
    pub passed: Passed,
    pub word: Word,
}

#[derive(Clone, Debug, PartialEq, Eq)]
pub struct Prototype {
    pub name: String,
    pub parameters: Vec<Parameter>,
    pub answer: Word,
}

/// A parameter or field as it stands in a text: where it is, and its name, its
/// word, and what makes it a pointer, const or not. A plan that is named and not
/// written out has none of these.
#[derive(Clone, Debug, Default)]
pub struct Spot {
    pub whole: Range<usize>,
    pub name: Option<Range<usize>>,
    pub word: Option<Range<usize>>,
    pub pointer: Option<Range<usize>>,
    /// The word that makes it const, or not; in C it may be empty.
    pub constness: Option<Range<usize>>,
}

/// A list of them: those of a function, or, without an owner, those that all
/// functions share. What a text does not have at this place is none.
#[derive(Clone, Debug, Default)]
pub struct Place {
    pub owner: Option<String>,
    pub whole: Option<Range<usize>>,
    pub name: Option<Range<usize>>,
    pub answer: Option<Range<usize>>,
    pub spots: Vec<Spot>,
}

/// What a file says, and where.
#[derive(Clone, Debug, Default)]
pub struct Reading {
    pub functions: Vec<Prototype>,
    pub places: Vec<Place>,
}

impl Reading {
    /// A function more, and where it stands: all of it, its name, its answer where
    /// it has one of its own, and its parameters.
    fn add(
        &mut self,
        function: Prototype,
        (whole, name, answer): (Range<usize>, Range<usize>, Option<Range<usize>>),
        spots: Vec<Spot>,
    ) {
        self.places.push(Place {
            owner: Some(function.name.clone()),
            whole: Some(whole),
            name: Some(name),
            answer,
            spots,
        });
        self.functions.push(function);
    }
}

/// Why a text was refused: the line, what was expected, and what stands there.
pub type Refused = String;

struct Token {
    place: Range<usize>,
    /// Whether it is the first of its line; a line that ends in \ goes on.
    fresh: bool,
}

/// The tokens of a text without its comments: words, strings, and every other
/// sign by itself.
fn tokens(text: &str) -> Vec<Token> {
    let mut found = Vec::new();
    let (mut at, mut fresh) = (0, true);
    while let Some(first) = text[at..].chars().next() {
        let rest = &text[at..];
        let upto = |end: &str, from: usize| match rest[from..].find(end) {
            Some(place) => from + place + end.len(),
            None => rest.len(),
        };
        let in_word = |c: char| c.is_alphanumeric() || c == '_';
        let (length, is_token) = match first {
            '\n' => {
                fresh = true;
                (1, false)
            }
            '\\' if rest.starts_with("\\\n") => (2, false),
            '/' if rest.starts_with("//") => (rest.find('\n').unwrap_or(rest.len()), false),
            '/' if rest.starts_with("/*") => (upto("*/", 2), false),
            '"' => (upto("\"", 1), true),
            c if c.is_whitespace() => (c.len_utf8(), false),
            c if in_word(c) => (rest.find(|c| !in_word(c)).unwrap_or(rest.len()), true),
            c => (c.len_utf8(), true),
        };
        if is_token {
            let place = at..at + length;
            found.push(Token { place, fresh });
            fresh = false;
        }
        at += length;
    }
    found
}

struct Reader<'a> {
    file: &'static str,
    text: &'a str,
    tokens: Vec<Token>,
    at: usize,
}

impl<'a> Reader<'a> {
    fn new(file: &'static str, text: &'a str) -> Reader<'a> {
        let tokens = tokens(text);
        Reader {
            file,
            text,
            tokens,
            at: 0,
        }
    }

    /// The token so far ahead, and nothing behind the last.
    fn ahead(&self, far: usize) -> &'a str {
        let token = self.tokens.get(self.at + far);
        token.map_or("", |token| &self.text[token.place.clone()])
    }

    fn word(&self) -> &'a str {
        self.ahead(0)
    }

    /// Where the token stands.
    fn here(&self) -> Range<usize> {
        let end = self.text.len();
        let token = self.tokens.get(self.at);
        token.map_or(end..end, |token| token.place.clone())
    }

    /// From the beginning of a place to the end of the token before this one.
    fn since(&self, start: &Range<usize>) -> Range<usize> {
        start.start..self.tokens[self.at - 1].place.end
    }

    fn refuse<T>(&self, expected: &str) -> Result<T, Refused> {
        let line = self.text[..self.here().start].matches('\n').count() + 1;
        let found = match self.word() {
            "" => "the end",
            word => word,
        };
        let file = self.file;
        Err(format!(
            "{file}, line {line}: expected {expected}, found {found}"
        ))
    }

    /// These tokens, with spaces between.
    fn expect(&mut self, expected: &str) -> Result<(), Refused> {
        for token in expected.split(' ') {
            if self.word() != token {
                return self.refuse(&format!("`{token}`"));
            }
            self.at += 1;
        }
        Ok(())
    }

    /// Whether this token is here; then it is passed.
    fn passes(&mut self, token: &str) -> bool {
        let is_here = self.word() == token;
        self.at += usize::from(is_here);
        is_here
    }

    /// All up to the brace that closes the one here.
    fn group(&mut self) -> Result<(), Refused> {
        self.expect("{")?;
        let mut depth = 1;
        while depth > 0 {
            match self.word() {
                "{" => depth += 1,
                "}" => depth -= 1,
                "" => return self.refuse("`}`"),
                _ => {}
            }
            self.at += 1;
        }
        Ok(())
    }

    fn name(&mut self) -> Result<(String, Range<usize>), Refused> {
        let (word, place) = (self.word(), self.here());
        let known = |c: char| c.is_ascii_lowercase() || c.is_ascii_digit() || c == '_';
        if !word.starts_with(|c: char| c.is_ascii_lowercase()) || !word.chars().all(known) {
            return self.refuse("a name");
        }
        self.at += 1;
        Ok((word.to_string(), place))
    }

    fn rust_word(&mut self) -> Result<(Word, Range<usize>), Refused> {
        let place = self.here();
        let word = match self.word() {
            "u8" => Word::U8,
            "u16" => Word::U16,
            "usize" => Word::Usize,
            "Record" => Word::Record,
            _ => return self.refuse("u8, u16, usize or Record"),
        };
        self.at += 1;
        Ok((word, place))
    }

    fn c_word(&mut self) -> Result<(Word, Range<usize>), Refused> {
        let start = self.here();
        let word = match self.word() {
            "uint8_t" => Word::U8,
            "uint16_t" => Word::U16,
            "size_t" => Word::Usize,
            "struct" if self.ahead(1) == "celery_record" => Word::Record,
            _ => return self.refuse("uint8_t, uint16_t, size_t or struct celery_record"),
        };
        self.at += if word == Word::Record { 2 } else { 1 };
        Ok((word, self.since(&start)))
    }

    /// A record is never passed by itself.
    fn no_record(&self, word: Word, passed: Passed) -> Result<(), Refused> {
        match (word, passed) {
            (Word::Record, Passed::Value) => self.refuse("a pointer to the record before this"),
            _ => Ok(()),
        }
    }

    /// Parameters up to the bracket that closes them, which is passed.
    fn list<T>(
        &mut self,
        mut one: impl FnMut(&mut Self) -> Result<T, Refused>,
    ) -> Result<Vec<T>, Refused> {
        let mut all = Vec::new();
        while !self.passes(")") {
            all.push(one(self)?);
            if self.word() != ")" {
                self.expect(",")?;
            }
        }
        Ok(all)
    }

    /// `x: &mut [u8]` of the library's source: a slice is a pointer and a length
    /// for C.
    fn library_parameter(&mut self) -> Result<(Vec<Parameter>, Spot), Refused> {
        let start = self.here();
        let (name, name_spot) = self.name()?;
        self.expect(":")?;
        let sign = self.here();
        let (passed, pointer) = match self.passes("&") {
            false => (Passed::Value, None),
            true if self.passes("mut") => (Passed::Mut, Some(self.since(&sign))),
            true => (Passed::Const, Some(sign)),
        };
        let is_slice = pointer.is_some() && self.passes("[");
        let (word, word_spot) = self.rust_word()?;
        if is_slice {
            self.expect("]")?;
        }
        self.no_record(word, passed)?;
        let length = Parameter {
            name: format!("{name}_len"),
            passed: Passed::Value,
            word: Word::Usize,
        };
        let mut parameters = vec![Parameter { name, passed, word }];
        parameters.extend(is_slice.then_some(length));
        let spot = Spot {
            whole: self.since(&start),
            name: Some(name_spot),
            word: Some(word_spot),
            constness: pointer.clone(),
            pointer,
        };
        Ok((parameters, spot))
    }

    /// `x: *mut u8` of ffi.rs.
    fn ffi_parameter(&mut self) -> Result<(Parameter, Spot), Refused> {
        let start = self.here();
        let (name, name_spot) = self.name()?;
        self.expect(":")?;
        let sign = self.here();
        let (passed, pointer) = match self.passes("*") {
            false => (Passed::Value, None),
            true if self.passes("const") => (Passed::Const, Some(self.since(&sign))),
            true => {
                self.expect("mut")?;
                (Passed::Mut, Some(self.since(&sign)))
            }
        };
        let (word, word_spot) = self.rust_word()?;
        self.no_record(word, passed)?;
        let spot = Spot {
            whole: self.since(&start),
            name: Some(name_spot),
            word: Some(word_spot),
            constness: pointer.clone(),
            pointer,
        };
        Ok((Parameter { name, passed, word }, spot))
    }

    /// `const uint8_t *x` of the header.
    fn c_parameter(&mut self) -> Result<(Parameter, Spot), Refused> {
        let start = self.here();
        let is_const = self.passes("const");
        let constness = match is_const {
            true => start.clone(),
            false => start.start..start.start,
        };
        let (word, word_spot) = self.c_word()?;
        let star = self.here();
        let passed = match (self.passes("*"), is_const) {
            (true, true) => Passed::Const,
            (true, false) => Passed::Mut,
            (false, false) => Passed::Value,
            (false, true) => return self.refuse("`*` behind a const"),
        };
        self.no_record(word, passed)?;
        let (name, name_spot) = self.name()?;
        let is_pointer = passed != Passed::Value;
        let spot = Spot {
            whole: self.since(&start),
            name: Some(name_spot),
            word: Some(word_spot),
            pointer: is_pointer.then_some(star),
            constness: is_pointer.then_some(constness),
        };
        Ok((Parameter { name, passed, word }, spot))
    }

    fn field(
        &self,
        name: (String, Range<usize>),
        word: (Word, Range<usize>),
        start: Range<usize>,
    ) -> (Parameter, Spot) {
        let spot = Spot {
            whole: self.since(&start),
            name: Some(name.1),
            word: Some(word.1),
            ..Spot::default()
        };
        let (name, passed, word) = (name.0, Passed::Value, word.0);
        (Parameter { name, passed, word }, spot)
    }
}

/// crates/celerycrag_c/src/lib.rt: what it imports, and exported functions with
/// their contracts and bodies. It has nothing else.
pub fn library(text: &str) -> Result<Reading, Refused> {
    let mut reader = Reader::new("lib.rt", text);
    let mut reading = Reading::default();
    while !reader.word().is_empty() {
        match reader.word() {
            "ghost" => {
                reader.expect("ghost use")?;
                while !matches!(reader.word(), ";" | "") {
                    reader.at += 1;
                }
                reader.expect(";")?;
                continue;
            }
            "use" => {
                reader.expect("use records : : Record ;")?;
                continue;
            }
            "#" if reader.ahead(1) == "!" => {
                reader.expect("# ! [ tactic ( auto ) ]")?;
                continue;
            }
            _ => {}
        }
        let start = reader.here();
        reader.expect("# [ unsafe ( no_mangle ) ] pub extern \"C\" fn")?;
        let (name, name_spot) = reader.name()?;
        reader.expect("(")?;
        let (parameters, spots): (Vec<_>, _) =
            reader.list(Reader::library_parameter)?.into_iter().unzip();
        reader.expect("- >")?;
        let (answer, answer_spot) = reader.rust_word()?;
        while matches!(reader.word(), "requires" | "ensures") {
            reader.at += 1;
            // One clause of several has a name.
            if reader.word() != "{" {
                reader.name()?;
            }
            reader.group()?;
        }
        reader.group()?;
        let function = Prototype {
            name,
            parameters: parameters.concat(),
            answer,
        };
        let places = (reader.since(&start), name_spot, Some(answer_spot));
        reading.add(function, places, spots);
    }
    Ok(reading)
}

/// include/celerycrag.h, its functions and the record: what the preprocessor is
/// told, enums, the one struct, and prototypes. It has nothing else. It is read
/// as C, where `__cplusplus` is not defined.
pub fn header(text: &str) -> Result<(Reading, Record), Refused> {
    let mut reader = Reader::new("celerycrag.h", text);
    let mut reading = Reading::default();
    let mut plan: Option<Vec<(Parameter, Spot)>> = None;
    let mut record = None;
    while !reader.word().is_empty() {
        let start = reader.here();
        match (reader.word(), reader.ahead(1)) {
            ("#", _) => directive(&mut reader, &mut plan)?,
            ("enum", _) => {
                reader.at += 1;
                reader.name()?;
                reader.group()?;
                reader.expect(";")?;
            }
            ("struct", _) if record.is_none() && reader.ahead(2) == "{" => {
                reader.expect("struct celery_record {")?;
                let mut fields = Vec::new();
                while !reader.passes("}") {
                    let start = reader.here();
                    let (word, name) = (reader.c_word()?, reader.name()?);
                    fields.push(reader.field(name, word, start));
                    reader.expect(";")?;
                }
                reader.expect(";")?;
                record = Some(Record::new(fields));
            }
            _ => {
                let (answer, answer_spot) = reader.c_word()?;
                let (name, name_spot) = reader.name()?;
                reader.expect("(")?;
                let lists = reader.list(|reader| {
                    let whole = reader.here();
                    match (&plan, reader.passes("CELERY_PLAN")) {
                        (_, false) => {
                            let (parameter, spot) = reader.c_parameter()?;
                            Ok((vec![parameter], spot))
                        }
                        (None, true) => reader.refuse("CELERY_PLAN to be defined before"),
                        (Some(plan), true) => {
                            let parameters = plan.iter().map(|(parameter, _)| parameter.clone());
                            let spot = Spot {
                                whole,
                                ..Spot::default()
                            };
                            Ok((parameters.collect(), spot))
                        }
                    }
                })?;
                reader.expect(";")?;
                let (parameters, spots): (Vec<_>, _) = lists.into_iter().unzip();
                let function = Prototype {
                    name,
                    parameters: parameters.concat(),
                    answer,
                };
                let places = (reader.since(&start), name_spot, Some(answer_spot));
                reading.add(function, places, spots);
            }
        }
    }
    let Some(plan) = plan else {
        return reader.refuse("CELERY_PLAN");
    };
    let Some(record) = record else {
        return reader.refuse("struct celery_record");
    };
    reading.places.push(Place {
        spots: plan.into_iter().map(|(_, spot)| spot).collect(),
        ..Place::default()
    });
    Ok((reading, record))
}

/// A line for the preprocessor. What it defines begins with CELERY, so that no
/// word of the language becomes another; of these the plan alone is a list of
/// parameters.
fn directive(
    reader: &mut Reader,
    plan: &mut Option<Vec<(Parameter, Spot)>>,
) -> Result<(), Refused> {
    let ends = |reader: &Reader| reader.tokens.get(reader.at).is_none_or(|token| token.fresh);
    if !ends(reader) {
        return reader.refuse("a line that begins with #");
    }
    reader.expect("#")?;
    match (reader.word(), reader.ahead(1)) {
        ("define", "CELERY_PLAN") if plan.is_none() => {
            reader.at += 2;
            let mut parameters = vec![reader.c_parameter()?];
            while !ends(reader) {
                reader.expect(",")?;
                parameters.push(reader.c_parameter()?);
            }
            *plan = Some(parameters);
        }
        ("define", "CELERY_PLAN") => return reader.refuse("CELERY_PLAN to be defined once"),
        ("define", name) if name.starts_with("CELERY") => {
            while !ends(reader) {
                reader.at += 1;
            }
        }
        // The guard is about all of the file.
        ("ifndef", _) if reader.at == 1 => reader.expect("ifndef CELERYCRAG_H")?,
        ("endif", "") => reader.expect("endif")?,
        ("include", _) => {
            reader.expect("include <")?;
            if !matches!(reader.word(), "stddef" | "stdint") {
                return reader.refuse("stddef or stdint");
            }
            reader.at += 1;
            reader.expect(". h >")?;
        }
        // What C++ reads alone.
        ("ifdef", _) => {
            reader.expect("ifdef __cplusplus")?;
            if !reader.passes("}") {
                reader.expect("extern \"C\" {")?;
            }
            reader.expect("# endif")?;
        }
        _ => return reader.refuse("another line for the preprocessor"),
    }
    match ends(reader) {
        true => Ok(()),
        false => reader.refuse("the end of the line"),
    }
}

/// rust/celerycrag/src/ffi.rs: the macro that has the plan's parameters and the
/// answer, and the calls declared by it. It has nothing else.
pub fn ffi(text: &str) -> Result<Reading, Refused> {
    let mut reader = Reader::new("ffi.rs", text);
    let mut reading = Reading::default();
    reader.expect("use crate : : Record ;")?;
    reader.expect("macro_rules ! calls { ( $ ( $ name : ident (")?;
    reader.expect("$ ( $ own : ident : $ type : ty ) , * ) ; ) * ) = > {")?;
    reader.expect("extern \"C\" { $ ( pub ( crate ) fn $ name (")?;
    let mut plan = Vec::new();
    while reader.word() != "$" {
        plan.push(reader.ffi_parameter()?);
        reader.expect(",")?;
    }
    reader.expect("$ ( $ own : $ type ) , * ) - >")?;
    let (answer, answer_spot) = reader.rust_word()?;
    reader.expect("; ) * } } ; }")?;
    let (plan, spots): (Vec<_>, _) = plan.into_iter().unzip();
    reading.places.push(Place {
        answer: Some(answer_spot),
        spots,
        ..Place::default()
    });

    reader.expect("calls ! {")?;
    while !reader.passes("}") {
        let start = reader.here();
        let (name, name_spot) = reader.name()?;
        reader.expect("(")?;
        let (own, spots): (Vec<_>, _) = reader.list(Reader::ffi_parameter)?.into_iter().unzip();
        reader.expect(";")?;
        let function = Prototype {
            name,
            parameters: [&plan[..], &own].concat(),
            answer,
        };
        reading.add(function, (reader.since(&start), name_spot, None), spots);
    }
    match reader.word() {
        "" => Ok(reading),
        _ => reader.refuse("the end"),
    }
}

/// A record's fields, and where they stand.
#[derive(Clone, Debug, Default)]
pub struct Record {
    pub fields: Vec<Parameter>,
    pub spots: Vec<Spot>,
}

impl Record {
    fn new(fields: Vec<(Parameter, Spot)>) -> Record {
        let (fields, spots) = fields.into_iter().unzip();
        Record { fields, spots }
    }
}

/// Passes over the derives of an item, where it has some.
fn derived(reader: &mut Reader) -> Result<(), Refused> {
    if reader.ahead(2) == "derive" {
        reader.expect("# [ derive (")?;
        while !matches!(reader.word(), ")" | "") {
            reader.at += 1;
        }
        reader.expect(") ]")?;
    }
    Ok(())
}

/// The struct Record of a Rust or Rattle source: the only one of this name there,
/// public and laid out as in C.
pub fn record(file: &'static str, text: &str) -> Result<Record, Refused> {
    let mut reader = Reader::new(file, text);
    // Where the item begins that is read, and where those of this name begin.
    let (mut start, mut depth, mut found) = (0, 0, Vec::new());
    while !reader.word().is_empty() {
        if (reader.word(), reader.ahead(1)) == ("struct", "Record") {
            found.push(start);
        }
        let word = reader.word();
        depth += i32::from(word == "{") - i32::from(word == "}");
        reader.at += 1;
        if depth == 0 && matches!(word, ";" | "}") {
            start = reader.at;
        }
    }
    let [start] = found[..] else {
        return reader.refuse("one struct Record");
    };
    reader.at = start;
    derived(&mut reader)?;
    reader.expect("# [ repr ( C ) ]")?;
    derived(&mut reader)?;
    reader.expect("pub struct Record {")?;
    let mut fields = Vec::new();
    while !reader.passes("}") {
        let start = reader.here();
        reader.expect("pub")?;
        let name = reader.name()?;
        reader.expect(":")?;
        let word = reader.rust_word()?;
        fields.push(reader.field(name, word, start));
        if reader.word() != "}" {
            reader.expect(",")?;
        }
    }
    Ok(Record::new(fields))
}
