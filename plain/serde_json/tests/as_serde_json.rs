//! Compares reading and printing with the crate `serde_json`, and changes of some texts besides.

use plain_serde_json::{Error, Number, Value};
use plain_std::alloc::Global;

const TEXTS: [&str; 12] = [
    r#"{"banned_nets":[{"version":1,"address":"1.2.3.0/24","ban_created":1,"banned_until":2}]}"#,
    r#"{"b": [1, -2, "x\u00e9"], "a": 7, "a": true, "c": null, "b": {"a": [], "": {}}}"#,
    r#""\"\\\/\b\f\n\r\t\u0001\u00e9\ud83d\ude00 é😀""#,
    "[1.7976931348623158e308, 1e999, 2.5E-3, -0, 0, -0.0, 1e-400, 0e5, 01, 1., .5, 1e]",
    "[18446744073709551615, 18446744073709551616, -9223372036854775808, -9223372036854775809]",
    " \t\r\n[ true , false , null ] \n",
    r#"{"a":1,}"#,
    "[1,]",
    r#""\ud800\u0041""#,
    r#""\udc00""#,
    "nul",
    "\u{feff}1",
];

fn same(ours: &Value, theirs: &serde_json::Value) -> bool {
    match (ours, theirs) {
        (Value::Null, serde_json::Value::Null) => true,
        (Value::Bool(ours), serde_json::Value::Bool(theirs)) => ours == theirs,
        (Value::Number(ours), serde_json::Value::Number(theirs)) => match ours {
            Number::Positive(ours) => theirs.as_u64() == Some(*ours),
            Number::Negative(ours) => theirs.as_i64() == Some(*ours) && *ours < 0,
            Number::Float(ours) => {
                theirs.is_f64()
                    && theirs
                        .as_f64()
                        .map_or(false, |f| f.to_bits() == ours.to_bits())
            }
        },
        (Value::String(ours), serde_json::Value::String(theirs)) => ours.as_str() == theirs,
        (Value::Array(ours), serde_json::Value::Array(theirs)) => {
            ours.len() == theirs.len() && ours.iter().zip(theirs).all(|(a, b)| same(a, b))
        }
        (Value::Object(_), serde_json::Value::Object(theirs)) => theirs
            .iter()
            .all(|(name, value)| ours.get(name).map_or(false, |own| same(own, value))),
        _ => false,
    }
}

/// Compares both on a text, and what is printed of it.
fn compare(text: &[u8]) {
    let shown = String::from_utf8_lossy(text);
    match (
        Value::from_slice(Global, text),
        serde_json::from_slice::<serde_json::Value>(text),
    ) {
        (Ok(ours), Ok(theirs)) => {
            assert!(same(&ours, &theirs), "{shown}");
            let again = serde_json::from_str::<serde_json::Value>(&ours.to_string()).unwrap();
            assert_eq!(again, theirs, "{shown}");
        }
        (Err(error), Err(_)) => assert!(!error.is_memory()),
        (Ok(_), Err(error)) => panic!("{shown}: {error}"),
        (Err(_), Ok(_)) => panic!("{shown}: it is JSON"),
    }
}

#[test]
fn texts_are_read_as_by_the_crate() {
    for text in TEXTS {
        compare(text.as_bytes());
    }
    for depth in [1, 126, 127, 128, 129] {
        compare(("[".repeat(depth) + &"]".repeat(depth)).as_bytes());
        compare(("{\"a\":".repeat(depth) + "1" + &"}".repeat(depth)).as_bytes());
    }
}

#[test]
fn changed_texts_are_read_as_by_the_crate() {
    // The generator of Knuth's MMIX.
    let mut state = 1u64;
    let mut draw = |below: usize| {
        state = state
            .wrapping_mul(6_364_136_223_846_793_005)
            .wrapping_add(1_442_695_040_888_963_407);
        (state >> 33) as usize % below
    };
    let pieces: [&[u8]; 22] = [
        b"[",
        b"]",
        b"{",
        b"}",
        b",",
        b":",
        b"\"",
        b"\\",
        b"\\u",
        b"d83d",
        b"0",
        b"-",
        b".",
        b"e",
        b"9",
        b"99999999999999999999",
        b"E+",
        b" ",
        b"\n",
        b"\xc3",
        b"true",
        b"\x00",
    ];
    for _ in 0..20_000 {
        let mut text = TEXTS[draw(TEXTS.len())].as_bytes().to_vec();
        for _ in 0..=draw(3) {
            let (start, piece) = (draw(text.len() + 1), pieces[draw(pieces.len())]);
            let end = (start + draw(3)).min(text.len());
            text.splice(start..end, piece.iter().copied());
        }
        compare(&text);
    }
}

#[test]
fn an_error_has_the_place_of_its_token() {
    let cases = [
        ("", 1, 0),
        ("tru", 1, 1),
        ("[1,\n  2 3]", 2, 5),
        ("[1,]", 1, 4),
        ("{\"a\":1 \"b\"}", 1, 8),
        ("{\"a\"  ,", 1, 7),
        ("[1e999 ,2]", 1, 9),
        ("\n[\"a\\x\"]", 2, 2),
    ];
    for (text, line, column) in cases {
        let error = Value::from_slice(Global, text.as_bytes()).err();
        assert_eq!(error, Some(Error::Text { line, column }), "{text}");
    }
    let error = Value::from_slice(Global, b"[\xff]").err();
    assert_eq!(error, Some(Error::Text { line: 1, column: 2 }));
}
