//! Arrays as bytes and in files, beside what docs/use/formats.md says of them.
use sellumaq::{DumpFault, Judy1, JudyHs, JudyL, JudySl, LoadError, LoadFault, SaveError};
use std::collections::{BTreeMap, BTreeSet};
use std::fmt::Debug;
use std::fs;
use std::io::{self, ErrorKind, Read, Write};
use std::num::{NonZeroI16, NonZeroU8};
use std::path::PathBuf;
use std::process::Command;

const LIMIT: u64 = 0xffff_ffff;

/// A dump in a format, of an array of a kind with so many keys, told by `entry`.
fn dump(format: u8, kind: u8, count: usize, entries: &[u8]) -> Vec<u8> {
    let head = [b"JDY", &[b'0' + format][..], &[0, 0, 0, 1, 5], b"array"].concat();
    let numbers = [LIMIT.to_be_bytes(), (count as u64).to_be_bytes()].concat();
    [&head, &[kind][..], &numbers, entries].concat()
}

fn of_words(kind: u8, words: &[u64]) -> Vec<u8> {
    let bytes: Vec<u8> = words.iter().flat_map(|word| word.to_be_bytes()).collect();
    dump(2, kind, words.len() / usize::from(kind), &bytes)
}

/// The same of strings, in the order of the dump.
fn of_strings(format: u8, kind: u8, pairs: &[(Vec<u8>, u64)]) -> Vec<u8> {
    let (mut bytes, mut last) = (Vec::new(), &Vec::new());
    for (key, value) in pairs {
        let mut shared = 0;
        if (format, kind) == (2, 3) {
            shared = key.iter().zip(last).take_while(|(a, b)| a == b).count();
            bytes.extend((shared as u16).to_be_bytes());
        }
        bytes.extend(((key.len() - shared) as u16).to_be_bytes());
        bytes.extend(&key[shared..]);
        bytes.extend(value.to_be_bytes());
        last = key;
    }
    dump(format, kind, pairs.len(), &bytes)
}

/// Words close together and far apart.
fn words(count: u64) -> BTreeSet<u64> {
    (0..count)
        .map(|n| n.wrapping_mul(0x9e37_79b9_7f4a_7c15) >> (n % 60))
        .collect()
}

fn strings(count: u64) -> BTreeMap<Vec<u8>, u64> {
    let key = |n: u64| format!("{}{n}", "shared ".repeat(n as usize % 4)).into_bytes();
    (0..count).map(|n| (key(n % 700), n)).collect()
}

fn by_length(pairs: BTreeMap<Vec<u8>, u64>) -> Vec<(Vec<u8>, u64)> {
    let mut list: Vec<_> = pairs.into_iter().collect();
    list.sort_by_key(|(key, _)| (key.len(), key.clone()));
    list
}

/// Whether an array is turned to these bytes and made of them, by all ways.
macro_rules! is_saved {
    ($type:ty, $array:expr, $bytes:expr) => {
        let (array, bytes): ($type, Vec<u8>) = ($array, $bytes);
        assert!(array.to_bytes().as_ref() == Ok(&bytes));
        assert!(<$type>::from_bytes(&bytes).as_ref() == Ok(&array));
        let mut written = Vec::new();
        array.write_to(&mut written).unwrap();
        assert!(written == bytes && <$type>::read_from(&bytes[..]).unwrap() == array);
        let (path, again) = (room().join("array"), room().join("again"));
        array.save(&path).unwrap();
        assert!(fs::read(&path).unwrap() == bytes && <$type>::load(&path).unwrap() == array);
        by_judystore(&path, &again, &bytes);
        fs::remove_dir_all(room()).unwrap();
    };
}

/// A folder of this thread's test.
fn room() -> PathBuf {
    let name = format!("sellumaq {:?}", std::thread::current().name().unwrap());
    let folder =
        std::env::temp_dir().join(name.replace(['"', ':'], "") + &std::process::id().to_string());
    fs::create_dir_all(&folder).unwrap();
    folder
}

/// What the program makes of a file, where it was built: the same bytes.
fn by_judystore(path: &PathBuf, again: &PathBuf, bytes: &[u8]) {
    let program = concat!(env!("CARGO_MANIFEST_DIR"), "/../../judystore");
    let mut command = Command::new(program);
    let options = command.args(["--format", "2", "--load"]).arg(path);
    let ran = options
        .arg("--dump")
        .arg(again)
        .arg("/dev/null")
        .env_remove("LD_PRELOAD")
        .status();
    match ran {
        Ok(status) => assert!(status.success() && fs::read(again).unwrap() == bytes),
        Err(_) => println!("there is no program judystore here"),
    }
}

#[test]
fn sets_and_maps_of_words() {
    for count in [0, 1, 3, 100, 5000] {
        let keys = words(count);
        let list: Vec<u64> = keys.iter().copied().collect();
        is_saved!(Judy1, list.iter().copied().collect(), of_words(1, &list));
        let pairs: Vec<u64> = keys.iter().flat_map(|&key| [key, !key]).collect();
        is_saved!(
            JudyL,
            keys.iter().map(|&key| (key, !key)).collect(),
            of_words(2, &pairs)
        );
    }
}

#[test]
fn maps_from_strings() {
    for count in [0, 1, 3, 100, 5000] {
        let (pairs, list) = (strings(count), by_length(strings(count)));
        let sorted: Vec<_> = pairs.clone().into_iter().collect();
        is_saved!(
            JudySl,
            pairs.clone().into_iter().collect(),
            of_strings(2, 3, &sorted)
        );
        is_saved!(
            JudyHs,
            pairs.clone().into_iter().collect(),
            of_strings(2, 4, &list)
        );
        let (first, hashed) = (of_strings(1, 3, &sorted), of_strings(1, 4, &list));
        assert_eq!(
            JudySl::from_bytes(first),
            Ok(pairs.clone().into_iter().collect())
        );
        assert_eq!(JudyHs::from_bytes(hashed), Ok(pairs.into_iter().collect()));
    }
}

/// A text that is cut, or of which a byte is another, has a fault, or is another whole array.
macro_rules! is_whole {
    ($type:ty, $array:expr) => {
        let array: $type = $array;
        let bytes = array.to_bytes().unwrap();
        for at in 0..bytes.len() {
            assert_eq!(<$type>::from_bytes(&bytes[..at]), Err(LoadFault::Truncated));
            for flip in [1, 2, 16, 128, 255] {
                let mut other = bytes.clone();
                other[at] ^= flip;
                if let Ok(array) = <$type>::from_bytes(&other) {
                    // the name and the limit aren't kept
                    assert_eq!(array.to_bytes().unwrap()[23..], other[23..]);
                }
            }
        }
        let longer = [&bytes[..], &[0]].concat();
        assert_eq!(<$type>::from_bytes(longer), Err(LoadFault::Trailing));
    };
}

#[test]
fn changed_bytes() {
    is_whole!(Judy1, words(4).into_iter().collect());
    is_whole!(JudyL, words(4).into_iter().map(|key| (key, !key)).collect());
    is_whole!(JudySl, strings(4).into_iter().collect());
    is_whole!(JudyHs, strings(4).into_iter().collect());
}

#[test]
fn faults_have_names() {
    let one = |bytes: &[u8]| [b"JDY1\0\0\0\x01\x01a", bytes].concat();
    let limit = LIMIT.to_be_bytes();
    let counted = |kind: u8, count: u64, bytes: &[u8]| {
        one(&[&[kind][..], &limit, &count.to_be_bytes(), bytes].concat())
    };
    let two = |other: u8| {
        [
            &b"JDY1\0\0\0\x02\x01a\x01"[..],
            &limit,
            &[0; 8],
            &[1, other, 1],
            &limit,
            &[0; 8],
        ]
        .concat()
    };
    let faults = [
        (vec![], LoadFault::Truncated, "truncated"),
        (b"JDY3".to_vec(), LoadFault::BadMagic, "bad-magic"),
        (b"JDY2\0\0\0A".to_vec(), LoadFault::TooMany, "too-many"),
        (b"JDY2\0\0\0\x01\0".to_vec(), LoadFault::BadName, "bad-name"),
        (two(b'a'), LoadFault::NotOne, "not-one"),
        (one(&[5]), LoadFault::BadKind, "bad-kind"),
        (one(&[1; 9]), LoadFault::BadLimit, "bad-limit"),
        (counted(1, LIMIT + 1, &[]), LoadFault::BadCount, "bad-count"),
        (counted(3, 1, &[0, 1, 0]), LoadFault::BadKey, "bad-key"),
        (counted(1, 2, &[0; 16]), LoadFault::BadOrder, "bad-order"),
        (counted(1, 0, &[0]), LoadFault::Trailing, "trailing"),
        (
            [b"JDY2", &counted(3, 1, &[0, 1])[4..]].concat(),
            LoadFault::BadPrefix,
            "bad-prefix",
        ),
        (b"JDY1\0\0\0\0".to_vec(), LoadFault::NotOne, "not-one"),
        (two(b'b'), LoadFault::NotOne, "not-one"),
        (counted(2, 0, &[]), LoadFault::OtherKind, "other-kind"),
        // a number that is far above what follows it
        (
            counted(1, LIMIT, &[0; 8]),
            LoadFault::Truncated,
            "truncated",
        ),
    ];
    for (bytes, fault, name) in faults {
        // what stands behind the kind is read of an array of that kind alone
        let loaded = match bytes.get(10) {
            Some(3) => JudySl::<u64>::from_bytes(bytes).map(|_| ()),
            _ => Judy1::<u64>::from_bytes(bytes).map(|_| ()),
        };
        assert_eq!(loaded, Err(fault));
        assert_eq!(fault.to_string().split(':').next(), Some(name));
    }
    for told in [LoadFault::OtherTypes, LoadFault::NoMemory].map(|it| it.to_string()) {
        assert!(told.starts_with("other-types: ") || told.starts_with("no-memory: "));
    }
}

/// An array of any types is read back, and not as one of types that its words don't fit.
#[test]
fn other_types() {
    let signed: JudyL<char, i32> = [(-1, 'b'), (i32::MIN, 'a'), (i32::MAX, '\u{10ffff}')]
        .into_iter()
        .collect();
    let bytes = signed.to_bytes().unwrap();
    // a key is how far it is above the least
    let told = [0, 97, 0x7fff_ffff, 98, 0xffff_ffff, 0x10_ffff];
    assert_eq!(bytes, of_words(2, &told));
    assert_eq!(JudyL::from_bytes(&bytes), Ok(signed));
    assert_eq!(
        JudyL::<u64, i16>::from_bytes(&bytes).map(|_| ()),
        Err(LoadFault::OtherTypes)
    );
    assert_eq!(
        JudyL::<u16, u64>::from_bytes(&bytes).map(|_| ()),
        Err(LoadFault::OtherTypes)
    );
    assert_eq!(
        JudyL::<u32, u32>::from_bytes(&bytes).map(|map| map.len()),
        Ok(3)
    );
    assert_eq!(
        Judy1::<i8>::from_bytes(of_words(1, &[0, 255])),
        Ok([i8::MIN, i8::MAX].into_iter().collect())
    );
    assert_eq!(
        Judy1::<i8>::from_bytes(of_words(1, &[0, 256])),
        Err(LoadFault::OtherTypes)
    );
}

/// Of each map with values of a type: the words that it holds, and those that it doesn't.
fn values<V: sellumaq::Value>(held: &[(u64, V)], others: &[u64]) {
    for &(word, value) in held {
        let told = [(b"a".to_vec(), word)];
        assert_eq!(
            JudyL::<V>::from_bytes(of_words(2, &[7, word])),
            Ok([(7, value)].into_iter().collect())
        );
        assert_eq!(
            JudySl::<V>::from_bytes(of_strings(2, 3, &told)),
            Ok([("a", value)].into_iter().collect())
        );
        assert_eq!(
            JudyHs::<V>::from_bytes(of_strings(2, 4, &told)),
            Ok([("a", value)].into_iter().collect())
        );
    }
    for &word in others {
        let told = [(b"a".to_vec(), word)];
        assert_eq!(
            JudyL::<V>::from_bytes(of_words(2, &[7, word])),
            Err(LoadFault::OtherTypes)
        );
        assert_eq!(
            JudySl::<V>::from_bytes(of_strings(2, 3, &told)),
            Err(LoadFault::OtherTypes)
        );
        assert_eq!(
            JudyHs::<V>::from_bytes(of_strings(2, 4, &told)),
            Err(LoadFault::OtherTypes)
        );
    }
}

#[test]
fn values_of_all_types() {
    values(&[(0, 0_u8), (255, 255)], &[256, u64::MAX]);
    values(&[(0, 0_i16), (0xffff, -1)], &[0x1_0000, u64::MAX]);
    values(&[(0, 0_i64), (u64::MAX, -1)], &[]);
    values(&[(0, false), (1, true)], &[2, 256]);
    values(
        &[(0, '\0'), (0xd7ff, '\u{d7ff}'), (0x10_ffff, '\u{10ffff}')],
        &[0xd800, 0xdfff, 0x11_0000, 1 << 32],
    );
    values(&[(1, NonZeroU8::new(1).unwrap())], &[0, 256]);
    values(&[(0, None), (0xffff, NonZeroI16::new(-1))], &[0x1_0000]);
}

struct Broken;

impl Write for Broken {
    fn write(&mut self, _: &[u8]) -> io::Result<usize> {
        Err(ErrorKind::BrokenPipe.into())
    }

    fn flush(&mut self) -> io::Result<()> {
        Ok(())
    }
}

impl Read for Broken {
    fn read(&mut self, _: &mut [u8]) -> io::Result<usize> {
        Err(ErrorKind::BrokenPipe.into())
    }
}

/// What an `io::Error` tells of a call that failed.
fn kind_of<T: Debug, E: Into<io::Error>>(told: Result<T, E>) -> ErrorKind {
    told.map_err(Into::into).unwrap_err().kind()
}

#[test]
fn errors_of_the_system_are_kept() {
    let map = JudyL::from([(1, 10)]);
    assert!(
        matches!(map.write_to(Broken), Err(SaveError::Io(it)) if it.kind() == ErrorKind::BrokenPipe)
    );
    assert!(
        matches!(<JudyL>::read_from(Broken), Err(LoadError::Io(it)) if it.kind() == ErrorKind::BrokenPipe)
    );
    let folder = room();
    let path = folder.join("map");
    map.save(&path).unwrap();
    for wrong in [folder.join("none").join("map"), folder.join("map\0")] {
        assert!(matches!(map.save(&wrong), Err(SaveError::Io(_))));
        assert!(matches!(<JudyL>::load(&wrong), Err(LoadError::Io(_))));
    }
    assert_eq!(
        kind_of(map.save(folder.join("map\0"))),
        ErrorKind::InvalidInput
    );
    assert_eq!(
        kind_of(<JudyL>::load(folder.join("none"))),
        ErrorKind::NotFound
    );
    assert_eq!(kind_of(<Judy1>::load(&path)), ErrorKind::InvalidData);
    assert_eq!(
        kind_of(<JudyL>::from_bytes(b"JDY1").map_err(LoadError::from)),
        ErrorKind::InvalidData
    );
    let long = JudyHs::from([([7; 1025], 5)]);
    assert_eq!(long.to_bytes(), Err(DumpFault::BadKey));
    assert_eq!(kind_of(long.save(&path)), ErrorKind::InvalidInput);
    assert_eq!(kind_of(long.write_to(Broken)), ErrorKind::InvalidInput);
    // what was there is there, and nothing beside it
    assert_eq!(<JudyL>::load(&path).unwrap(), map);
    assert_eq!(fs::read_dir(&folder).unwrap().count(), 1);
    fs::remove_dir_all(folder).unwrap();
}
