//! The program's arrays over std's sets and maps, to be measured beside it: a script of `make NAME KIND`, `ins` and `get`, of a judy1 `set` and `test`,
//! from standard input gets the same bytes for answers. Other lines are refused as unknown.
use std::collections::{BTreeMap, BTreeSet, HashMap};
use std::io::{self, BufRead, BufReader, BufWriter, Write};

/// What stands for an array of each kind.
enum Array {
    Judy1(BTreeSet<u64>),
    JudyL(BTreeMap<u64, u64>),
    JudySl(BTreeMap<Vec<u8>, u64>),
    JudyHs(HashMap<Vec<u8>, u64>),
}

type Arrays = BTreeMap<String, Array>;

/// As many bytes as the program reads and writes at once.
const PIECE: usize = 65_536;

/// What a line answers.
enum Answer {
    Ok,
    Was(u64),
    Value(u64),
    None,
    Error(&'static str),
}

const BAD_KEY: Answer = Answer::Error("bad-key");
const BAD_WORD: Answer = Answer::Error("bad-word");
const WRONG_KIND: Answer = Answer::Error("wrong-kind");

/// The bytes of a string; of its two forms only `=`, which all scripts that are measured use.
fn string(token: &str) -> Option<&[u8]> {
    token.strip_prefix('=').map(str::as_bytes)
}

fn make(arrays: &mut Arrays, name: &str, kind: &str) -> Answer {
    let array = match kind {
        "judy1" => Array::Judy1(BTreeSet::new()),
        "judyl" => Array::JudyL(BTreeMap::new()),
        "judysl" => Array::JudySl(BTreeMap::new()),
        "judyhs" => Array::JudyHs(HashMap::new()),
        _ => return WRONG_KIND,
    };
    arrays.insert(name.to_owned(), array);
    Answer::Ok
}

fn insert(array: &mut Array, key: &str, value: &str) -> Answer {
    let Ok(value) = value.parse() else { return BAD_WORD };
    let was = match (array, key.parse(), string(key)) {
        (Array::JudyL(map), Ok(key), _) => map.insert(key, value),
        (Array::JudySl(map), _, Some(key)) => map.insert(key.to_vec(), value),
        (Array::JudyHs(map), _, Some(key)) => map.insert(key.to_vec(), value),
        (Array::Judy1(_), ..) => return WRONG_KIND,
        _ => return BAD_KEY,
    };
    Answer::Was(was.unwrap_or(0))
}

fn get(array: &Array, key: &str) -> Answer {
    let value = match (array, key.parse(), string(key)) {
        (Array::JudyL(map), Ok(key), _) => map.get(&key),
        (Array::JudySl(map), _, Some(key)) => map.get(key),
        (Array::JudyHs(map), _, Some(key)) => map.get(key),
        (Array::Judy1(_), ..) => return WRONG_KIND,
        _ => return BAD_KEY,
    };
    value.map_or(Answer::None, |value| Answer::Value(*value))
}

fn set_or_test(array: &mut Array, key: &str, sets: bool) -> Answer {
    match (array, key.parse()) {
        (Array::Judy1(set), Ok(key)) if sets => Answer::Value(set.insert(key).into()),
        (Array::Judy1(set), Ok(key)) => Answer::Value(set.contains(&key).into()),
        (Array::Judy1(_), _) => BAD_WORD,
        _ => WRONG_KIND,
    }
}

fn execute(arrays: &mut Arrays, line: &str) -> Answer {
    let mut tokens = line.split_ascii_whitespace();
    let (command, name, key, value) = (tokens.next(), tokens.next(), tokens.next(), tokens.next());
    let (Some(command), Some(name), Some(key)) = (command, name, key) else { return Answer::Error("unknown-command") };
    if command == "make" {
        return make(arrays, name, key);
    }
    let Some(array) = arrays.get_mut(name) else { return Answer::Error("no-such-array") };
    match (command, value) {
        ("ins", Some(value)) => insert(array, key, value),
        ("get", None) => get(array, key),
        ("set", None) => set_or_test(array, key, true),
        ("test", None) => set_or_test(array, key, false),
        _ => Answer::Error("unknown-command"),
    }
}

fn tell(answer: &Answer, to: &mut impl Write) -> io::Result<()> {
    match answer {
        Answer::Ok => writeln!(to, "ok"),
        Answer::Was(value) => writeln!(to, "was {value}"),
        Answer::Value(value) => writeln!(to, "{value}"),
        Answer::None => writeln!(to, "none"),
        Answer::Error(word) => writeln!(to, "error {word}"),
    }
}

fn main() -> io::Result<()> {
    let mut script = BufReader::with_capacity(PIECE, io::stdin());
    let mut answers = BufWriter::with_capacity(PIECE, io::stdout().lock());
    let (mut arrays, mut line) = (Arrays::new(), String::new());
    while script.read_line(&mut line)? > 0 {
        tell(&execute(&mut arrays, &line), &mut answers)?;
        line.clear();
    }
    answers.flush()
}
