//! The arrays by Serde, in the words of its data model and as JSON.
use sellumaq::{Judy1, JudyHs, JudyL, JudySl};
use serde::de::value::{MapDeserializer, SeqDeserializer};
use serde::de::{Deserialize, Error};
use serde_test::{assert_de_tokens, assert_de_tokens_error, assert_tokens, Token};
use std::collections::{BTreeMap, BTreeSet};
use std::fmt::{self, Display};
use std::num::NonZeroU8;

#[path = "../../tests/refuser/mod.rs"]
mod refuser;

use refuser::Refuser;

#[test]
fn a_set_is_a_sequence_of_words() {
    let told = [
        Token::Seq { len: Some(3) },
        Token::U64(0),
        Token::U64(5),
        Token::U64(u64::MAX),
        Token::SeqEnd,
    ];
    assert_tokens(&Judy1::from([5, u64::MAX, 0]), &told);
    assert_tokens(&Judy1::new(), &[Token::Seq { len: Some(0) }, Token::SeqEnd]);
}

#[test]
fn a_map_of_words_is_a_map() {
    let told = [
        Token::Map { len: Some(2) },
        Token::U64(5),
        Token::U64(50),
        Token::U64(u64::MAX),
        Token::U64(0),
        Token::MapEnd,
    ];
    assert_tokens(&JudyL::from([(u64::MAX, 0), (5, 50)]), &told);
    assert_tokens(&JudyL::new(), &[Token::Map { len: Some(0) }, Token::MapEnd]);
}

#[test]
fn strings_are_bytes() {
    let told = [
        Token::Map { len: Some(3) },
        Token::Bytes(b""),
        Token::U64(1),
        Token::Bytes(b"b\xff"),
        Token::U64(2),
        Token::Bytes(b"ccc"),
        Token::U64(3),
        Token::MapEnd,
    ];
    let pairs = [(&b"ccc"[..], 3), (b"b\xff", 2), (b"", 1)];
    assert_tokens(&JudySl::from(pairs), &told);
    assert_tokens(&JudyHs::from(pairs), &told);
}

/// A map that is said to have so many keys, as formats tell it.
fn map(len: Option<usize>, pairs: &[Token]) -> Vec<Token> {
    let mut told = vec![Token::Map { len }];
    told.extend(pairs);
    told.push(Token::MapEnd);
    told
}

/// A map of one key.
fn one_key(key: &[Token], value: u64) -> Vec<Token> {
    map(None, &[key, &[Token::U64(value)]].concat())
}

#[test]
fn a_key_of_bytes_comes_in_any_form() {
    let seq = [
        Token::Seq { len: Some(2) },
        Token::U8(b'a'),
        Token::U8(0xff),
        Token::SeqEnd,
    ];
    let forms: [(&[u8], &[Token]); 6] = [
        (b"a\xff", &[Token::BorrowedBytes(b"a\xff")]),
        (b"a\xff", &[Token::ByteBuf(b"a\xff")]),
        (b"a\xff", &seq),
        (b"text", &[Token::Str("text")]),
        (b"text", &[Token::String("text")]),
        (b"t", &[Token::Char('t')]),
    ];
    for (key, form) in forms {
        assert_de_tokens(&JudySl::from([(key, 7)]), &one_key(form, 7));
        assert_de_tokens(&JudyHs::from([(key, 7)]), &one_key(form, 7));
    }
}

#[test]
fn a_key_that_comes_again_has_the_last_value() {
    let words = [1, 10, 2, 20, 1, 11].map(Token::U64);
    let told = map(None, &words);
    assert_de_tokens(&JudyL::from([(1, 11), (2, 20)]), &told);
    assert_de_tokens(&BTreeMap::from([(1_u64, 11_u64), (2, 20)]), &told);
    let strings = [
        Token::Str("a"),
        Token::U64(1),
        Token::Str("a"),
        Token::U64(2),
    ];
    let told = map(None, &strings);
    assert_de_tokens(&JudySl::from([("a", 2)]), &told);
    assert_de_tokens(&JudyHs::from([("a", 2)]), &told);
}

#[test]
fn lengths_that_are_only_said_take_no_room() {
    let set = [
        Token::Seq {
            len: Some(usize::MAX),
        },
        Token::U64(7),
        Token::SeqEnd,
    ];
    assert_de_tokens(&Judy1::from([7]), &set);
    let told = map(Some(usize::MAX), &[Token::U64(7), Token::U64(70)]);
    assert_de_tokens(&JudyL::from([(7, 70)]), &told);
    let key = [
        Token::Seq {
            len: Some(usize::MAX),
        },
        Token::U8(b'k'),
        Token::SeqEnd,
    ];
    let told = map(Some(usize::MAX), &[&key[..], &[Token::U64(1)]].concat());
    assert_de_tokens(&JudySl::from([("k", 1)]), &told);
    assert_de_tokens(&JudyHs::from([("k", 1)]), &told);
}

#[test]
fn what_is_no_array_is_an_error() {
    let long: &'static str = Box::leak("k".repeat(70_000).into_boxed_str());
    let zero: &'static str = Box::leak(format!("{long}\0").into_boxed_str());
    assert_de_tokens(&JudySl::from([(long, 1)]), &one_key(&[Token::Str(long)], 1));
    for key in ["a\0b", zero] {
        assert_de_tokens_error::<JudySl>(
            &[Token::Map { len: None }, Token::Str(key), Token::U64(1)],
            "not the bytes of a key",
        );
        assert_de_tokens(&JudyHs::from([(key, 1)]), &one_key(&[Token::Str(key)], 1));
    }
    assert_de_tokens_error::<Judy1>(
        &[Token::Str("words")],
        "invalid type: string \"words\", expected a sequence of words",
    );
    assert_de_tokens_error::<JudyL>(
        &[Token::Unit],
        "invalid type: unit value, expected a map from words to words",
    );
    assert_de_tokens_error::<JudySl>(
        &[Token::U64(5)],
        "invalid type: integer `5`, expected a map from strings to words",
    );
    assert_de_tokens_error::<JudyHs>(
        &[Token::Map { len: None }, Token::U64(5)],
        "invalid type: integer `5`, expected the bytes of a key",
    );
    assert!(serde_json::from_str::<Judy1>("[1, -1]").is_err());
    assert!(serde_json::from_str::<JudyL>("{\"1\": 18446744073709551616}").is_err());
}

#[test]
fn json_is_that_of_std() {
    let (set, map) = (
        BTreeSet::from([3_u64, 1, u64::MAX]),
        BTreeMap::from([(5_u64, 50_u64), (3, 30)]),
    );
    let text = serde_json::to_string(&(&set, &map)).unwrap();
    let (judy1, judyl): (Judy1, JudyL) = serde_json::from_str(&text).unwrap();
    assert!(judy1.iter().eq(set.iter().copied()));
    assert!(judyl
        .iter()
        .eq(map.iter().map(|(key, value)| (*key, *value))));
    assert_eq!(serde_json::to_string(&(judy1, judyl)).unwrap(), text);
    // a key of JSON is text, and bytes are none
    let ages: JudySl = serde_json::from_str("{\"Grace\": 85, \"Ada\": 36}").unwrap();
    assert_eq!(ages, JudySl::from([("Ada", 36), ("Grace", 85)]));
    assert!(serde_json::to_string(&ages).is_err());
}

#[test]
fn other_types_are_told_as_themselves() {
    let map: JudyL<char, i8> = [(5, 'b'), (-128, 'a')].into_iter().collect();
    let told = [
        Token::Map { len: Some(2) },
        Token::I8(-128),
        Token::Char('a'),
        Token::I8(5),
        Token::Char('b'),
        Token::MapEnd,
    ];
    assert_tokens(&map, &told);
    let set: Judy1<i32> = [7, -7].into_iter().collect();
    assert_eq!(serde_json::to_string(&set).unwrap(), "[-7,7]");
    let strings: JudySl<Option<NonZeroU8>> = [("a", None)].into_iter().collect();
    let told = [
        Token::Map { len: Some(1) },
        Token::Bytes(b"a"),
        Token::None,
        Token::MapEnd,
    ];
    assert_tokens(&strings, &told);
    // what is no value or key of the type is an error
    assert!(serde_json::from_str::<Judy1<u8>>("[255, 256]").is_err());
    assert!(serde_json::from_str::<JudyHs<NonZeroU8>>("{\"a\": 0}").is_err());
    let one: JudyHs<NonZeroU8> = serde_json::from_str("{\"a\": 1}").unwrap();
    assert_eq!(one.get("a"), NonZeroU8::new(1));
}

/// An error that takes no memory.
#[derive(PartialEq, Debug)]
struct Refused;

impl Display for Refused {
    fn fmt(&self, to: &mut fmt::Formatter<'_>) -> fmt::Result {
        to.write_str("refused")
    }
}

impl std::error::Error for Refused {}

impl Error for Refused {
    fn custom<T: Display>(_: T) -> Refused {
        Refused
    }
}

#[test]
fn want_of_memory_is_an_error() {
    let refuser = match Refuser::find() {
        Some(refuser) => refuser,
        None => return,
    };
    let words = || (0..300_u64).map(|n| n.wrapping_mul(0x9e37_79b9_7f4a_7c15));
    let texts = || {
        "some keys that share no beginning and a longer one: abcdefghijklmnop"
            .split(' ')
            .zip(1_u64..)
    };
    let ((), failed) = refuser.in_turn(
        &mut (),
        Refused,
        |()| {
            <Judy1>::deserialize(SeqDeserializer::<_, Refused>::new(words()))?;
            <JudyL>::deserialize(MapDeserializer::<_, Refused>::new(words().zip(words())))?;
            <JudySl>::deserialize(MapDeserializer::<_, Refused>::new(texts()))?;
            <JudyHs>::deserialize(MapDeserializer::<_, Refused>::new(texts())).map(drop)
        },
        |()| true,
    );
    assert!(failed > 100, "{failed}");
}
