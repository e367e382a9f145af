//! What no safe program may break: iterators that are left or forgotten, closures that panic, keys that change, and
//! threads.
use sellumaq::{Judy1, JudyHs, JudyL, JudySl};
use std::cell::Cell;
use std::mem::forget;
use std::panic::{catch_unwind, AssertUnwindSafe};
use std::thread;

fn panics(act: impl FnOnce()) {
    let hook = std::panic::take_hook();
    std::panic::set_hook(Box::new(|_| {}));
    let told = catch_unwind(AssertUnwindSafe(act));
    std::panic::set_hook(hook);
    assert!(told.is_err());
}

fn map() -> JudyL {
    (0..1000).map(|n| (n * 3, n)).collect()
}

fn strings() -> JudySl {
    (0..1000).map(|n: u64| (format!("key {n:04}"), n)).collect()
}

#[test]
fn iterators_that_are_left_or_forgotten_leave_the_array_whole() {
    let (mut words, mut texts) = (map(), strings());
    assert_eq!(words.iter_mut().nth(5).map(|it| it.0), Some(15));
    assert_eq!(texts.iter_mut().rev().nth(5).map(|it| *it.1), Some(994));
    drop((
        words.entry(4).key().to_owned(),
        texts.entry("none").key().to_owned(),
    ));
    assert!(words == map() && texts == strings());
    // what they own is lost then, and nothing else
    let (mut owned, mut owned_texts) = (words.clone().into_iter(), texts.clone().into_iter());
    assert_eq!(
        (owned.next(), owned_texts.next_back().map(|it| it.1)),
        (Some((0, 0)), Some(999))
    );
    forget((owned, owned_texts));
    assert!(words == map() && texts == strings());
}

#[test]
fn closures_that_panic_leave_the_array_whole() {
    let (mut words, mut texts, mut set) = (map(), strings(), (0..1000).collect::<Judy1>());
    panics(|| words.retain(|key, _| if *key < 30 { false } else { panic!() }));
    panics(|| {
        texts.retain(|key, _| {
            if key < &b"key 0010"[..] {
                false
            } else {
                panic!()
            }
        })
    });
    panics(|| set.retain(|key| if *key < 10 { false } else { panic!() }));
    assert_eq!((words.len(), texts.len(), set.len()), (990, 990, 990));
    assert_eq!(
        (words.iter().next(), set.first()),
        (Some((30, 10)), Some(10))
    );
    // the value that was changed before the panic is as it was, and those that were changed before stay changed
    panics(|| {
        words.retain(|key, value| {
            *value = 7;
            *key == 30 || panic!()
        })
    });
    assert_eq!((words.get(30), words.get(33)), (Some(7), Some(11)));
    words.insert(30, 10);
    let mut hashed: JudyHs = [("a", 1), ("bb", 2)].into();
    panics(|| {
        hashed.retain(|key, value| {
            *value = 7;
            key.len() == 1 || panic!()
        })
    });
    assert_eq!((hashed.get("a"), hashed.get("bb")), (Some(7), Some(2)));
    panics(|| {
        words.entry(1).or_insert_with(|| panic!());
    });
    panics(|| {
        words.entry(30).and_modify(|_| panic!());
    });
    panics(|| {
        texts.entry("none").or_insert_with(|| panic!());
    });
    panics(|| words.extend((0..9).map(|n| if n < 5 { (n, n) } else { panic!() })));
    assert_eq!(
        (words.len(), words.get(4), texts.len()),
        (990 + 5, Some(4), 990)
    );
}

/// A key that is another string each time that it is asked for.
struct Changing(Cell<usize>);

impl AsRef<[u8]> for Changing {
    fn as_ref(&self) -> &[u8] {
        const STRINGS: [&[u8]; 5] = [b"a", b"b", b"no\0key", b"", b"key 0003"];
        self.0.set(self.0.get() + 1);
        STRINGS[self.0.get() % STRINGS.len()]
    }
}

#[test]
fn keys_that_change_break_nothing() {
    for from in 0..10 {
        let key = || Changing(Cell::new(from));
        let mut texts = strings();
        texts.entry(key()).and_modify(|value| *value += 1);
        if let sellumaq::judysl::Entry::Occupied(entry) = texts.entry(key()) {
            entry.remove_entry();
        }
        if let sellumaq::judysl::Entry::Vacant(entry) = texts.entry(key()) {
            drop(entry.try_insert(5));
        }
        drop((
            texts.remove(key()),
            texts.split_off(key()),
            texts.range(key()..key()).count(),
        ));
        assert_eq!(texts.iter().count(), texts.len());
        let mut bytes = JudyHs::from([("a", 1)]);
        if let sellumaq::judyhs::Entry::Occupied(entry) = bytes.entry(key()) {
            entry.remove();
        }
        assert!(bytes.len() < 2);
    }
}

#[test]
fn slots_of_one_iterator_stand_side_by_side() {
    let (mut words, mut texts) = (map(), strings());
    // the threads write to the first slots while the iterator looks for the next
    thread::scope(|scope| {
        for (n, slot) in words.values_mut().enumerate() {
            match n % 100 {
                0 => drop(scope.spawn(move || *slot += n as u64)),
                _ => *slot += n as u64,
            }
        }
    });
    assert!(words.values().eq((0..1000).map(|n| n * 2)));
    let mut slots: Vec<_> = texts.iter_mut().rev().collect();
    slots.iter_mut().for_each(|(_, slot)| **slot += 1);
    assert!(texts.values().eq(1..=1000));
}

#[test]
fn ways_from_both_ends_read_no_slot_that_was_lent() {
    let (mut words, mut texts) = (map(), strings());
    // behind the last key left is one whose slot a thread writes to; a run under helgrind sees whether that is read
    thread::scope(|scope| {
        let mut range = texts.range_mut("key 0100".."key 0104");
        for (_, slot) in [range.next(), range.next_back()].into_iter().flatten() {
            scope.spawn(move || *slot += 1);
        }
        assert_eq!(range.by_ref().map(|(_, slot)| *slot).sum::<u64>(), 203);
        assert!(range.next().is_none() && range.next_back().is_none());
        let mut range = words.range_mut(300..=309);
        for (_, slot) in [range.next_back(), range.next()].into_iter().flatten() {
            scope.spawn(move || *slot += 1);
        }
        let between = range.by_ref().rev();
        assert_eq!(between.map(|(_, slot)| *slot).sum::<u64>(), 203);
        assert!(range.next().is_none() && range.next_back().is_none());
    });
    assert_eq!((texts["key 0100"], texts["key 0103"]), (101, 104));
    assert_eq!((words[300], words[309]), (101, 104));
}

#[test]
fn threads_read_one_array() {
    let (words, texts, set) = (map(), strings(), (0..1000).collect::<Judy1>());
    let bytes: JudyHs = texts.iter().collect();
    thread::scope(|scope| {
        for _ in 0..4 {
            scope.spawn(|| {
                assert_eq!(words.values().sum::<u64>(), 499_500);
                assert_eq!(texts.values().sum::<u64>(), 499_500);
                assert!((0..1000)
                    .all(|n| words[n * 3] == n && words.nth(n as usize) == Some((n * 3, n))));
                assert!(texts
                    .iter()
                    .all(|(key, value)| bytes[&key] == value && texts[&key] == value));
                assert_eq!((set.iter().sum::<u64>(), set.count(..)), (499_500, 1000));
            });
        }
    });
}

#[test]
fn arrays_and_their_iterators_may_go_to_threads() {
    fn sent<T: Send + Sync>() {}
    sent::<(Judy1, JudyL, JudySl, JudyHs)>();
    sent::<(
        sellumaq::judyl::IterMut<'_>,
        sellumaq::judyl::OccupiedEntry<'_>,
        sellumaq::judysl::IntoIter,
    )>();
    let owned = thread::spawn(map).join().unwrap();
    assert_eq!(
        thread::spawn(move || owned.into_iter().count())
            .join()
            .unwrap(),
        1000
    );
}
