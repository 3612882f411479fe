//! Records, header fields and texts, and the messages of the errors. The bytes are those of the
//! RFCs, or were calculated manually if the RFC has none.

use octets::{Octets, OctetsMut};
use octets_lists::builder::Builder;
use octets_lists::encodings::{decode, is_short, read_text};
use octets_lists::growing_sink::{GrowingSink, huffman_text};
use octets_lists::header_field::{FieldError, Indexing, put_field, read_field, write_field};
use octets_lists::literals::read_two;
use octets_lists::records::{RecordsError, find_record, put_record, read_records};
use octets_lists::tcp::{TcpHeader, read_edges, read_tcp_header, write_tcp_header};
use octets_literal::LiteralError;
use rattle_std::alloc::Global;
use std::fmt::{self, Display, Write};

/// A server accepts a connection: SYN and ACK are set, and the header has five words.
#[test]
fn tcp_header() {
    let header = TcpHeader {
        source: 443,
        destination: 50_000,
        sequence: 0x0102_0304,
        acknowledgment: 0x0506_0708,
        offset_and_flags: 0x5012,
        window: 0x1122,
        checksum: 0x3344,
        urgent: 0x5566,
    };
    let mut bytes = [9; 21];
    let mut writer = OctetsMut::with_slice(&mut bytes);
    assert!(write_tcp_header(&mut writer, header).is_ok());
    assert!(write_tcp_header(&mut writer, header).is_err());
    let wanted = [0x01, 0xbb, 0xc3, 0x50, 1, 2, 3, 4, 5, 6, 7, 8, 0x50, 0x12, 0x11, 0x22, 0x33, 0x44, 0x55, 0x66, 9];
    assert_eq!(bytes, wanted);
    assert_eq!(read_tcp_header(&mut Octets::with_slice(&wanted)), Ok(header));
}

/// The edges of one block, and half of a third edge.
#[test]
fn tcp_edges() {
    let bytes = [0, 0, 1, 0, 0, 0, 2, 1, 0, 0];
    let mut cursor = Octets::with_slice(&bytes);
    assert!(read_edges(Global, &mut cursor, 3).is_err());
    assert_eq!(cursor.off(), 0);
    let edges = read_edges(Global, &mut cursor, 2).expect("two edges");
    assert_eq!(edges.as_slice(), [256, 513]);
    assert_eq!(cursor.off(), 8);
}

/// Records of the kinds 1, 2 and 2.
static RECORDS: [u8; 9] = [1, 2, 0xaa, 0xbb, 2, 0, 2, 1, 7];

#[test]
fn records_to_the_end() {
    let records = read_records(Global, &RECORDS).expect("records");
    assert_eq!(records.len(), 3);
    assert_eq!(records[0].kind, 1);
    assert_eq!(records[0].value.buf(), [0xaa, 0xbb].as_slice());
    assert_eq!(read_records(Global, &RECORDS[..8]).err(), Some(RecordsError::Short));
}

#[test]
fn record_found_or_not() {
    let found = find_record(&RECORDS, 2).expect("records").expect("one of them");
    assert!(found.is_empty());
    assert_eq!(find_record(&RECORDS, 3), Ok(None));
    assert!(find_record(&RECORDS[..8], 3).is_err());
}

#[test]
fn record_put_or_not() {
    let mut bytes = [9; 5];
    let mut writer = OctetsMut::with_slice(&mut bytes);
    assert!(put_record(&mut writer, 1, &[0xaa, 0xbb]).is_ok());
    assert!(put_record(&mut writer, 2, &[]).is_err());
    assert_eq!(bytes, [1, 2, 0xaa, 0xbb, 9]);
}

/// The last field of RFC 7541, appendix C.4.3.
static CUSTOM_FIELD: [u8; 20] = [
    0x40, 0x88, 0x25, 0xa8, 0x49, 0xe9, 0x5b, 0xa9, 0x7d, 0x7f, 0x89, 0x25, 0xa8, 0x49, 0xe9, 0x5b, 0xb8, 0xe8, 0xb4,
    0xbf,
];

#[test]
fn field_of_two_texts() {
    let (kind, name, value) = (Indexing::Incremental, b"custom-key", b"custom-value");
    let mut buffer = [0; 20];
    let mut writer = OctetsMut::with_slice(&mut buffer);
    assert!(write_field(&mut writer, kind, name, value).is_ok());
    assert_eq!(buffer, CUSTOM_FIELD);
    let mut sink = GrowingSink::new(Global);
    assert!(put_field(&mut sink, kind, name, value).is_ok());
    assert_eq!(sink.into_bytes().as_slice(), CUSTOM_FIELD.as_slice());
    let mut reader = Octets::with_slice(&CUSTOM_FIELD);
    let field = read_field(Global, &mut reader, 12).expect("a field");
    assert_eq!(field.indexing, Indexing::Incremental);
    assert_eq!(field.name.as_slice(), name.as_slice());
    assert_eq!(field.value.as_slice(), value.as_slice());
}

/// The field of RFC 7541, appendix C.2.3, which must not be indexed.
static PASSWORD: [u8; 17] = *b"\x10\x08password\x06secret";

/// Returns why the read of a field failed, and where the offset is then.
fn field_refused(bytes: &[u8], max_len: usize) -> (Option<FieldError>, usize) {
    let mut cursor = Octets::with_slice(bytes);
    let reason = read_field(Global, &mut cursor, max_len).err();
    (reason, cursor.off())
}

#[test]
fn fields_refused() {
    let short = Some(FieldError::Literal(LiteralError::Short));
    let long = Some(FieldError::Literal(LiteralError::Value));
    assert_eq!(field_refused(&[], 8), (short, 0));
    assert_eq!(field_refused(&[0x41, 0], 8), (Some(FieldError::NotNew), 0));
    assert_eq!(field_refused(&PASSWORD, 7), (long, 1));
    assert_eq!(field_refused(&PASSWORD[..16], 8), (short, 10));
    assert_eq!(field_refused(&PASSWORD, 8), (None, 17));
}

/// RFC 7541, appendix C.4.3.
#[test]
fn text_in_a_growing_sink() {
    let text = huffman_text(Global, b"custom-key").expect("memory");
    assert_eq!(text.as_slice(), &CUSTOM_FIELD[2..10]);
}

#[test]
fn message_by_several_calls() {
    let mut bytes = [9; 7];
    let mut builder = Builder::of(OctetsMut::with_slice(&mut bytes));
    assert!(builder.put_two(258, 772).is_ok());
    assert!(builder.put_pair(3, 1).is_err());
    // The kind of the pair that didn't fit was written.
    assert_eq!(bytes, [1, 1, 2, 2, 3, 4, 3]);
}

/// The text "no-cache" of RFC 7541, appendix C.4.2.
#[test]
fn encodings_and_literals() {
    let text = [0xa8, 0xeb, 0x10, 0x64, 0x9c, 0xbf];
    assert!(decode(Global, &text).is_ok_and(|v| v.as_slice() == b"no-cache".as_slice()));
    let mut long = Octets::with_slice(&[0, 6, 0xa8, 0xeb, 0x10, 0x64, 0x9c, 0xbf]);
    assert!(read_text(Global, &mut long).is_ok_and(|v| v.as_slice() == b"no-cache".as_slice()));
    assert!(is_short(0x61) && !is_short(0));
    let mut literals = Octets::with_slice(&[1, 0x61, 0x86, 0xa8, 0xeb, 0x10, 0x64, 0x9c, 0xbf]);
    let two = read_two(Global, &mut literals, 8);
    assert!(two.is_ok_and(|t| t.0.as_slice() == b"a".as_slice() && t.1.as_slice() == b"no-cache".as_slice()));
}

/// A writer that takes no text.
struct Full;

impl Write for Full {
    fn write_str(&mut self, _text: &str) -> fmt::Result {
        Err(fmt::Error)
    }
}

/// The error has this message, whatever the width, and `fmt` fails if the writer fails.
#[track_caller]
fn assert_says(error: impl Display, text: &str) {
    assert_eq!(format!("{error}; {error:99}"), format!("{text}; {text}"));
    assert!(write!(Full, "{error}").is_err());
}

#[test]
fn errors_of_records_as_texts() {
    assert_says(RecordsError::Short, "the buffer ends within a record");
    assert_says(RecordsError::Memory, "out of memory");
}

/// Each message is tested as the error of a literal, and as that of a field.
#[test]
fn errors_of_literals_as_texts() {
    assert_says(FieldError::NotNew, "the first byte begins no field of a new name");
    for (error, text) in [
        (LiteralError::Short, "the bytes end before the string literal does"),
        (LiteralError::Length, "the string literal's length has more than six bytes or exceeds 4294967295"),
        (LiteralError::Value, "the string literal has no value within the limit"),
        (LiteralError::OutOfMemory, "out of memory"),
    ] {
        assert_says(error, text);
        assert_says(FieldError::Literal(error), text);
    }
}
