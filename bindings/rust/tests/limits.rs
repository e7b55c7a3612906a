//! What is at a limit that the package names is taken, and what is one above it is refused with 10.

use hulgyevan::*;

/// Gives a contents of so many columns under the longest image that a column can have.
fn contents_of(columns: usize) -> Vec<u8> {
    let mut bytes = vec![columns as u8];
    for _ in 0..columns {
        bytes.extend(b"\x12+#############^^^^");
    }
    bytes
}

#[test]
fn columns_and_bodies() {
    let found = read_contents(&contents_of(MAX_COLUMNS));
    assert_eq!(found, Ok(Contents { columns: MAX_COLUMNS, body: MAX_BODY }));
    assert_eq!(read_contents(&contents_of(MAX_COLUMNS + 1)).unwrap_err().reason, Reason::WrongCount);
}

#[test]
fn elements_and_lines() {
    let elements = [Element::number(Number::ZERO); MAX_ELEMENTS + 1];
    let mut buffer = [0; 200];
    assert!(print(b"#", &elements[1..], b"", &mut buffer).is_ok());
    assert_eq!(print(b"#", &elements, b"", &mut buffer).unwrap_err().reason, Reason::WrongCount);
    let (line, mut buffer) = ([b'a'; MAX_LINE + 1], [0; MAX_LINE]);
    assert_eq!(print(&line[1..], &[], b"", &mut buffer), Ok(Printed { size: MAX_LINE, spilled: 0 }));
    assert_eq!(print(&line, &[], b"", &mut buffer).unwrap_err().reason, Reason::WrongCount);
}

#[test]
fn positions() {
    let positions = [Number::ZERO; MAX_POSITIONS + 1];
    let mut records = [0; MAX_POSITIONS + 1];
    assert_eq!(find(b"\x01\x01#", &positions[1..], &mut records), Ok(0));
    assert_eq!(find(b"\x01\x01#", &positions, &mut records).unwrap_err().reason, Reason::WrongCount);
}
