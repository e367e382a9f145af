//! The least that a load of a dump can be, to be measured beside the program: the bytes of a dump JDY1 of one array are read, its keys checked
//! to ascend, and its entries put into one sorted vector. Each load of the program has to do as much.
use std::fs::File;
use std::io::{self, BufReader, Error, ErrorKind, Read};

/// As many bytes as the program reads at once.
const PIECE: usize = 65_536;

/// The parts of a dump of one array: magic and number of arrays, then the array's name, kind, limit and number of keys.
struct Head {
    kind: u8,
    count: u64,
}

fn bytes<const N: usize>(from: &mut impl Read) -> io::Result<[u8; N]> {
    let mut room = [0; N];
    from.read_exact(&mut room)?;
    Ok(room)
}

fn word(from: &mut impl Read) -> io::Result<u64> {
    bytes(from).map(u64::from_be_bytes)
}

fn head(from: &mut impl Read) -> io::Result<Head> {
    bytes::<8>(from)?;
    let mut name = vec![0; usize::from(bytes::<1>(from)?[0])];
    from.read_exact(&mut name)?;
    let [kind] = bytes(from)?;
    word(from)?;
    Ok(Head { kind, count: word(from)? })
}

fn string(from: &mut impl Read) -> io::Result<Box<[u8]>> {
    let mut room = vec![0; usize::from(u16::from_be_bytes(bytes(from)?))];
    from.read_exact(&mut room)?;
    Ok(room.into_boxed_slice())
}

/// The entries, whose keys ascend in an order. Memory is asked for by the entries that were read, not by the number that is told.
fn fill<T>(count: u64, mut next: impl FnMut() -> io::Result<T>, is_before: impl Fn(&T, &T) -> bool) -> io::Result<usize> {
    let mut entries: Vec<T> = Vec::new();
    for _ in 0..count {
        let entry = next()?;
        if entries.last().is_some_and(|last| !is_before(last, &entry)) {
            return Err(Error::new(ErrorKind::InvalidData, "the keys don't ascend"));
        }
        entries.push(entry);
    }
    Ok(entries.len())
}

fn main() -> io::Result<()> {
    let path = std::env::args().nth(1).expect("usage: load_vector DUMP");
    let mut from = BufReader::with_capacity(PIECE, File::open(path)?);
    let Head { kind, count } = head(&mut from)?;
    let filled = match kind {
        1 => fill(count, || word(&mut from), |last, key| last < key),
        2 => fill(count, || Ok((word(&mut from)?, word(&mut from)?)), |last, pair| last.0 < pair.0),
        3 => fill(count, || Ok((string(&mut from)?, word(&mut from)?)), |last, pair| last.0 < pair.0),
        _ => fill(count, || Ok((string(&mut from)?, word(&mut from)?)), |last, pair| (last.0.len(), &last.0) < (pair.0.len(), &pair.0)),
    };
    assert_eq!(filled? as u64, count);
    Ok(())
}
