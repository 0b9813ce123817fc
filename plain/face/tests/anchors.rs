//! Files of anchors, and what the program in Python says of them (`tools/make_vectors`).

use addrman::{AnchorsError, AnchorsFault, EncodeError, Entry, read_anchors, write_anchors};

const MAGIC: [u8; 4] = [0xf9, 0xbe, 0xb4, 0xd9];

/// The bytes of hexadecimal digits.
fn bytes_of(digits: &str) -> Vec<u8> {
    let byte = |at| u8::from_str_radix(&digits[at..at + 2], 16).unwrap();
    (0..digits.len()).step_by(2).map(byte).collect()
}

/// What is found in a file, as the rows write it.
fn told(found: &Result<Vec<Entry>, AnchorsError>) -> String {
    match found {
        Ok(anchors) if anchors.is_empty() => "none".into(),
        Ok(anchors) => {
            let line = |one: &Entry| format!("{} {} {}", one.time, one.services, one.peer);
            anchors.iter().map(line).collect::<Vec<_>>().join(", ")
        }
        Err(AnchorsError::Refused(fault)) => fault.to_string(),
        Err(AnchorsError::Memory(_)) => "memory".into(),
    }
}

#[test]
fn files_are_read_as_the_rows_say_and_written_as_they_were() {
    let mut written = 0;
    for row in include_str!("anchors.txt").lines().filter(|row| !row.starts_with('#')) {
        let (file, answer) = row.split_once(" -> ").unwrap();
        let (magic, file) = file.split_once(' ').unwrap();
        let (magic, file) = (bytes_of(magic).try_into().unwrap(), bytes_of(file));
        let found = read_anchors(&file, magic);
        assert_eq!(told(&found), answer, "{row}");
        if let Ok(anchors) = found {
            let again = write_anchors(&anchors, magic).unwrap();
            assert_eq!(read_anchors(&again, magic).as_ref(), Ok(&anchors));
            written += usize::from(again == file);
        }
    }
    assert_eq!(written, 6);
}

#[test]
fn limits_are_named() {
    let large = AnchorsFault::TooLarge { size: 1_048_577 };
    assert_eq!(read_anchors(&[0; 1_048_577], MAGIC), Err(AnchorsError::Refused(large)));
    let anchor = Entry::new(std::net::SocketAddr::from(([8, 8, 8, 8], 8333)), 1, 0);
    let most = write_anchors(&[anchor; 1000], MAGIC).unwrap();
    assert_eq!(read_anchors(&most, MAGIC).unwrap().len(), 1000);
    assert_eq!(write_anchors(&[anchor; 1001], MAGIC), Err(EncodeError::TooMany));
}
