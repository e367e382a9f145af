//! Each call that sellumaq.h declares is declared here with the same types, and no other is.
use std::collections::BTreeMap;
use std::fs::read_to_string;

/// The calls that a text declares, each with the types that it takes, in order, and the one that it answers.
type Calls = BTreeMap<String, Vec<String>>;

fn read(path: &str) -> String {
    read_to_string(format!("{}/{path}", env!("CARGO_MANIFEST_DIR"))).unwrap()
}

/// Takes the words `sellumaq_KIND_CALL(PARAMETERS)` of a text, each beside the text before it and the text behind it.
fn calls(text: &str, end: &str, types: impl Fn(&str, &str, &str) -> Vec<String>) -> Calls {
    text.split(end)
        .filter_map(|declared| {
            let (head, rest) = declared.split_once('(')?;
            let (parameters, behind) = rest.split_once(')')?;
            let (before, name) = head.rsplit_once(' ')?;
            let is_call = name.starts_with("sellumaq_judy") && name.matches('_').count() > 1;
            is_call.then(|| (name.to_owned(), types(before, parameters, behind)))
        })
        .collect()
}

/// A type of C as Rust writes it. Whether a handle is only read is no part of it.
fn of_c(words: &str) -> String {
    let name = match words
        .trim_start_matches("const ")
        .split([' ', '*'])
        .next()
        .unwrap()
    {
        "char" => "i8",
        "uint8_t" => "u8",
        "uint32_t" => "u32",
        "uint64_t" => "u64",
        "size_t" => "usize",
        other => other,
    };
    format!("{}{name}", "*".repeat(words.matches('*').count()))
}

fn of_rust(words: &str) -> String {
    words.trim().replace("*const ", "*").replace("*mut ", "*")
}

#[test]
fn the_calls_are_those_of_the_header() {
    let header = calls(&read("../../c/sellumaq.h"), ";", |before, parameters, _| {
        let answer = before.rsplit(char::is_whitespace).next().unwrap();
        parameters
            .split(',')
            .map(str::trim)
            .chain((answer != "void").then_some(answer))
            .map(of_c)
            .collect()
    });
    let here = calls(&read("src/lib.rs"), ";", |_, parameters, behind| {
        let types = parameters
            .split(',')
            .filter_map(|it| it.split_once(':'))
            .map(|it| it.1);
        types
            .chain(behind.trim_start().strip_prefix("-> "))
            .map(of_rust)
            .collect()
    });
    assert!(header.len() > 50, "{}", header.len());
    assert_eq!(here, header);
}
