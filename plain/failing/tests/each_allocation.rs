//! Each allocation of the calls in these crates fails in turn. The call says that memory ran out,
//! and what it would have changed is as it was. Where a call ended the process, so would this test.

use plain_failing::{Failing, each};
use plain_std::alloc::{AllocError, AllocFailed, Global};
use plain_std::boxed::Box;
use plain_std::ext::{CollectWith, ToStringWith, ToVecWith, TryClone};
use plain_std::string::String;
use plain_std::vec::Vec;
use std::fmt::Debug;

#[global_allocator]
static FAILING: Failing = Failing;

/// Does the work with each of its allocations failing, and returns what it gives with memory for
/// all. It makes `count` allocations, and the outcome of each failure satisfies `is_memory`.
fn done<T, E: Debug>(
    count: usize,
    is_memory: impl Fn(&E) -> bool,
    work: impl FnMut() -> Result<T, E>,
) -> T {
    let mut outcomes = each(work);
    let last = outcomes.pop().expect("the work is done once at least");
    assert_eq!(outcomes.len(), count);
    for outcome in outcomes {
        assert!(outcome.err().map_or(false, |error| is_memory(&error)));
    }
    last.expect("there is memory for all")
}

/// The same of work whose only error is that memory ran out.
fn done_or_memory<T>(count: usize, work: impl FnMut() -> Result<T, AllocError>) -> T {
    done(count, |error| *error == AllocError, work)
}

#[test]
fn a_list_is_as_it_was() {
    let list = done_or_memory(3, || {
        let mut list = Vec::from_array(Global, [1, 2])?;
        if let Err(AllocFailed { value }) = list.push(3) {
            assert_eq!((value, list.as_slice()), (3, &[1, 2][..]));
            return Err(AllocError);
        }
        let room = list.capacity() - list.len();
        list.resize(3 + room, 0)?;
        if let Err(AllocFailed { value }) = list.insert(0, 9) {
            assert_eq!((value, list.len()), (9, 3 + room));
            return Err(AllocError);
        }
        Ok(list)
    });
    assert_eq!(list.as_slice()[..4], [9, 1, 2, 3]);
    let mut one = Vec::from_array(Global, [5u8; 8]).unwrap();
    let mut other = Vec::from_array(Global, [6u8; 8]).unwrap();
    for outcome in &each(|| one.append(&mut other))[..1] {
        assert_eq!(*outcome, Err(AllocError));
    }
    assert_eq!((one.len(), other.len()), (16, 0));
}

#[test]
fn copies_of_lists_are_refused() {
    let count = done_or_memory(6, || {
        let list = [1u8, 2].to_vec_with(Global)?;
        let copy = list.try_clone()?;
        let collected = (0..3).collect_with(Global)?;
        let many = Vec::from_elem(Global, 7, 5)?;
        let mut more = Vec::new(Global);
        more.extend_from_slice(&many)?;
        more.reserve_exact(100)?;
        Ok(list.len() + copy.len() + collected.len() + more.len())
    });
    assert_eq!(count, 12);
}

#[test]
fn a_text_is_as_it_was() {
    let text = done_or_memory(3, || {
        let mut text = String::from_str(Global, "ab")?;
        if text.push_str("cdefghijklmnop").is_err() {
            assert_eq!(text.as_str(), "ab");
            return Err(AllocError);
        }
        let number = 7.to_string_with(Global)?;
        Ok((text, number))
    });
    assert_eq!((text.0.len(), text.1.as_str()), (16, "7"));
}

#[test]
fn what_is_not_boxed_is_given_back() {
    let boxed = done_or_memory(1, || {
        Box::new(Global, [7u8; 100]).map_err(|AllocFailed { value }| {
            assert_eq!(value, [7; 100]);
            AllocError
        })
    });
    assert_eq!(boxed[99], 7);
}

#[test]
fn a_slab_and_a_map_are_as_they_were() {
    let mut slab = plain_slab::Slab::new(Global);
    let mut map: plain_indexmap::IndexMap<u64, u64> = plain_indexmap::IndexMap::new(Global);
    let (mut of_slab, mut of_map) = (0, 0);
    for value in 0..1000u64 {
        let refused = each(|| match slab.insert(value) {
            Ok(key) => {
                assert_eq!(key as u64, value);
                true
            }
            Err(AllocFailed { value: again }) => {
                assert_eq!((again, slab.len() as u64), (value, value));
                false
            }
        });
        of_slab += refused.len() - 1;
        let refused = each(|| match map.insert(value, 2 * value) {
            Ok(before) => {
                assert_eq!(before, None);
                true
            }
            Err(AllocFailed { value: again }) => {
                assert_eq!((again, map.get(&value)), ((value, 2 * value), None));
                assert!((0..value).all(|key| map.get(&key) == Some(&(2 * key))));
                false
            }
        });
        of_map += refused.len() - 1;
    }
    assert!(of_slab > 5 && of_map > 10, "{of_slab} and {of_map} failed");
}

#[test]
fn digits_and_distances_are_refused() {
    use plain_hex::{FromHexError, decode, encode};
    let is_memory = |error: &FromHexError| *error == FromHexError::OutOfMemory;
    assert_eq!(
        done(1, is_memory, || decode(Global, "0aff")).as_slice(),
        [10, 255]
    );
    let text = done_or_memory(1, || encode(Global, [10, 255]));
    assert_eq!(text.as_str(), "0aff");
    assert_eq!(
        done_or_memory(1, || plain_strsim::levenshtein(Global, "ab", "b")),
        1
    );
}

#[test]
fn json_is_refused_for_memory_alone() {
    use plain_serde_json::{Error, Value};
    let text = br#"{"a": [1, "t\u0065xt", {"b": null}], "c": 1.5, "a": [[], {}]}"#;
    let outcomes = each(|| Value::from_slice(Global, text).map(|value| value.get("c").is_some()));
    let (last, failed) = outcomes.split_last().expect("it is read once at least");
    assert_eq!(*last, Ok(true));
    assert!(failed.len() > 5 && failed.iter().all(|outcome| *outcome == Err(Error::Memory)));
}

#[test]
fn printed_json_is_refused() {
    use plain_json::{Pretty, Token};
    let text = each(|| {
        let mut out = Pretty::new(Global);
        for token in [
            Token::BeginObject,
            Token::Key("name"),
            Token::String("text\n"),
        ] {
            out.token(token)?;
        }
        out.token(Token::EndObject)?;
        Ok::<_, AllocError>(out.into_inner())
    });
    let (last, failed) = text.split_last().expect("it is written once at least");
    assert!(!failed.is_empty() && failed.iter().all(|outcome| outcome.is_err()));
    assert!(
        last.as_ref()
            .map_or(false, |text| text.starts_with(b"{\n  \"name\""))
    );
}
