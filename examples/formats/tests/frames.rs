//! Frames, datagrams and messages of several fields. The bytes are those of the RFCs, or were
//! calculated manually if the RFC has none.

use octets::{Octets, OctetsMut};
use octets_fields::udp::{read_ports, write_header};
use octets_formats::datagram::write_and_read;
use octets_formats::frame::{next_frame, put_frame, read_frame};
use octets_formats::message::{get_bytes_with_u24_length, put_bytes_with_u24_length, write_message};
use octets_formats::stream::{StreamError, StreamType, read_stream, write_stream};

#[test]
fn udp_header() {
    let mut bytes = [9; 9];
    let mut writer = OctetsMut::with_slice(&mut bytes);
    assert!(write_header(&mut writer, 53, 258, 8).is_ok());
    assert!(write_header(&mut writer, 1, 1, 8).is_err());
    assert_eq!(bytes, [0, 53, 1, 2, 0, 8, 0, 0, 9]);
    let mut reader = Octets::with_slice(&bytes[..7]);
    assert!(read_ports(&mut reader).is_err());
    assert_eq!(reader.off(), 4);
    assert_eq!(read_ports(&mut Octets::with_slice(&bytes)), Ok((53, 258)));
}

/// A complete frame, and then a frame of which two bytes of three have arrived.
#[test]
fn frames_as_they_come() {
    let bytes = [0, 1, 97, 0x40, 0x40, 3, 97, 98, 99];
    let mut cursor = Octets::with_slice(&bytes[..8]);
    let frame = read_frame(&mut cursor).expect("a frame");
    assert!(frame.kind == 0 && frame.payload.buf() == b"a".as_slice());
    assert!(next_frame(&mut cursor).is_err());
    assert_eq!(cursor.off(), 3);
    let mut room = [9; 8];
    let mut writer = OctetsMut::with_slice(&mut room);
    assert!(put_frame(&mut writer, 64, b"abc").is_ok());
    assert!(put_frame(&mut writer, 0, b"a").is_err());
    assert_eq!(room[..6], bytes[3..]);
}

/// RFC 9221, section 4: the type 0x31, and a length before the data.
#[test]
fn datagram_through() {
    let mut bytes = [9; 6];
    assert!(write_and_read(&mut bytes, 0x31, b"abcde").is_err());
    assert!(write_and_read(&mut bytes, 0x31, b"abcdefg").is_err());
    assert!(bytes == [9; 6]);
    let datagram = write_and_read(&mut bytes, 0x31, b"abc").expect("a datagram");
    assert!(datagram.kind == 0x31 && datagram.payload.buf() == b"abc".as_slice());
    assert_eq!(bytes, [0x31, 3, 97, 98, 99, 9]);
}

#[test]
fn run_behind_three_bytes() {
    let mut bytes = [9; 6];
    let mut writer = OctetsMut::with_slice(&mut bytes);
    assert!(put_bytes_with_u24_length(&mut writer, b"ab").is_ok());
    assert!(put_bytes_with_u24_length(&mut writer, b"").is_err());
    assert_eq!(bytes, [0, 0, 2, 97, 98, 9]);
    let run = get_bytes_with_u24_length(&mut Octets::with_slice(&bytes)).expect("a run");
    assert_eq!(run.buf(), b"ab".as_slice());
    let mut reader = Octets::with_slice(&bytes[..4]);
    assert!(get_bytes_with_u24_length(&mut reader).is_err());
    assert_eq!(reader.off(), 3);
}

#[test]
fn message_behind_its_length() {
    let mut bytes = [9; 8];
    assert_eq!(write_message(&mut bytes, 0x1234, 0x0100, &[5]), Ok(7));
    assert_eq!(bytes, [0, 5, 0x12, 0x34, 1, 0, 5, 9]);
    assert!(write_message(&mut bytes, 0x1234, 0x0100, &[5, 6, 7]).is_err());
}

/// The stream 4, the offset 64 in two bytes, three bytes after their length, and another byte.
static STREAM: [u8; 9] = [14, 4, 0x40, 0x40, 3, 97, 98, 99, 9];

#[test]
fn stream_with_all_fields() {
    let mut cursor = Octets::with_slice(&STREAM);
    let frame = read_stream(&mut cursor).expect("a frame");
    assert!(frame.id == 4 && frame.offset == 64 && !frame.is_last);
    assert_eq!(frame.data.buf(), b"abc".as_slice());
    assert_eq!(cursor.off(), 8);
    let kind = StreamType { has_offset: true, has_length: true, is_last: false };
    let mut room = [9; 15];
    let mut writer = OctetsMut::with_slice(&mut room);
    assert!(write_stream(&mut writer, kind, 4, 64, b"abc").is_ok());
    // One byte is missing for a second frame, and nothing of it is written.
    assert!(write_stream(&mut writer, kind, 4, 64, b"abc").is_err());
    assert_eq!(writer.off(), 8);
    assert_eq!(room, [14, 4, 0x40, 0x40, 3, 97, 98, 99, 9, 9, 9, 9, 9, 9, 9]);
}

/// Each prefix of the frame lacks the field in which it ends.
#[test]
fn stream_without_a_field() {
    let reasons = [
        StreamError::NoType,
        StreamError::NoId,
        StreamError::NoOffset,
        StreamError::NoOffset,
        StreamError::NoLength,
        StreamError::NoData,
        StreamError::NoData,
        StreamError::NoData,
    ];
    for n in 0..reasons.len() {
        let mut cursor = Octets::with_slice(&STREAM[..n]);
        assert_eq!(read_stream(&mut cursor).err(), Some(reasons[n]));
        assert_eq!(cursor.off(), 0);
    }
}

/// The offset is 2 to the power 62 - 1, and the data go on to the end.
static FAR: [u8; 11] = [13, 0, 255, 255, 255, 255, 255, 255, 255, 255, 97];

#[test]
fn stream_of_another_type_or_too_far() {
    for kind in [7, 16] {
        let refused = read_stream(&mut Octets::with_slice(&[kind, 0])).err();
        assert_eq!(refused, Some(StreamError::OtherType));
    }
    let mut cursor = Octets::with_slice(&FAR);
    assert_eq!(read_stream(&mut cursor).err(), Some(StreamError::TooFar));
    assert_eq!(cursor.off(), 0);
    let end = read_stream(&mut Octets::with_slice(&FAR[..10])).expect("a frame");
    assert!(end.offset == (1 << 62) - 1 && end.is_last && end.data.is_empty());
}

/// The stream 4 in a varint of four bytes; the offset is 0, and the data go on to the end.
#[test]
fn stream_with_no_optional_field() {
    let bytes = [8, 0x80, 0, 0, 4, 97, 98];
    let frame = read_stream(&mut Octets::with_slice(&bytes)).expect("a frame");
    assert!(frame.id == 4 && frame.offset == 0);
    assert_eq!(frame.data.buf(), b"ab".as_slice());
}
