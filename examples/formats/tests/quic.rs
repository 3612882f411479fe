//! ACK frames and the transport parameter `preferred_address` of QUIC. RFC 9000 has no example of either: the bytes were
//! calculated manually from its sections 19.3.1 and 18.2.

use octets::{Octets, OctetsMut};
use octets_formats::preferred::{PreferredError, read_preferred, write_and_read, write_preferred};
use octets_lists::ack::{AckError, AckRanges, read_ack};

/// The packets 10, 8 and 3 to 5, and another byte.
static ACK: [u8; 9] = [10, 7, 2, 0, 0, 0, 1, 2, 0xff];

#[test]
fn ack_of_three_ranges() {
    let mut cursor = Octets::with_slice(&ACK);
    let ack = read_ack(&mut cursor).expect("a frame");
    assert_eq!(cursor.off(), 8);
    let fields = ack.fields;
    assert_eq!((fields.largest, fields.delay, fields.count, fields.first), (10, 7, 2, 0));
    assert_eq!((ack.smallest, ack.ranges.buf()), (3, [0, 0, 1, 2].as_slice()));
    let mut ranges = AckRanges::of(fields.largest - fields.first, ack.ranges);
    assert_eq!(ranges.next(), Some((8, 8)));
    assert_eq!(ranges.next(), Some((3, 5)));
    assert_eq!(ranges.next(), None);
}

/// The largest packet 100 is a varint of two bytes. The first range is 96 to 100, and the second 91 and 92.
#[test]
fn ack_with_a_wider_number() {
    let ack = read_ack(&mut Octets::with_slice(&[0x40, 100, 3, 1, 4, 2, 1])).expect("a frame");
    assert_eq!((ack.fields.largest, ack.fields.first, ack.smallest), (100, 4, 91));
}

/// Reads a frame after one other byte, and returns the error and the offset.
fn refused(frame: &[u8]) -> (Option<AckError>, usize) {
    let packet = [&[2], frame].concat();
    let mut cursor = Octets::with_slice(&packet);
    assert_eq!(cursor.get_u8(), Ok(2));
    (read_ack(&mut cursor).err(), cursor.off())
}

#[test]
fn ack_that_fails() {
    for n in 0..4 {
        assert_eq!(refused(&ACK[..n]), (Some(AckError::Short), 1));
    }
    for n in 4..8 {
        assert_eq!(refused(&ACK[..n]), (Some(AckError::CutRange), 1));
    }
    assert_eq!(refused(&ACK[..8]), (None, 9));
    assert_eq!(refused(&[5, 0, 0, 6]), (Some(AckError::FirstBelow), 1));
    // The gap 3 leads from packet 5 to packet 0, and the gap 4 below it. A length of 1 leads below it too.
    assert_eq!(refused(&[5, 0, 1, 0, 3, 0]), (None, 7));
    assert_eq!(refused(&[5, 0, 1, 0, 4, 0]), (Some(AckError::RangeBelow), 1));
    assert_eq!(refused(&[5, 0, 1, 0, 3, 1]), (Some(AckError::RangeBelow), 1));
}

/// 192.0.2.1, port 443; 2001:db8::1, port 8443; the connection ID 010203, and a token.
static PREFERRED: [u8; 44] = [
    192, 0, 2, 1, 0x01, 0xbb, //
    0x20, 0x01, 0x0d, 0xb8, 0, 0, 0, 0, 0, 0, 0, 0, 0, 0, 0, 1, 0x20, 0xfb, //
    3, 1, 2, 3, //
    9, 9, 9, 9, 9, 9, 9, 9, 9, 9, 9, 9, 9, 9, 9, 9,
];
const FOUR: (u32, u16) = (0xc000_0201, 443);
const SIX: ([u8; 16], u16) = ([0x20, 0x01, 0x0d, 0xb8, 0, 0, 0, 0, 0, 0, 0, 0, 0, 0, 0, 1], 8443);

#[test]
fn preferred_address() {
    let mut cursor = Octets::with_slice(&PREFERRED);
    let read = read_preferred(&mut cursor).expect("a parameter");
    assert_eq!(cursor.off(), 44);
    assert_eq!(((read.four, read.four_port), (read.six, read.six_port)), (FOUR, SIX));
    assert_eq!((read.id.buf(), read.token), ([1, 2, 3].as_slice(), [9; 16]));
    let mut written = [0; 46];
    let mut writer = OctetsMut::with_slice(&mut written);
    assert!(writer.write_u8(7).is_ok());
    assert!(write_preferred(&mut writer, FOUR, SIX, &[1, 2, 3], [9; 16]).is_ok());
    // Too few bytes remain for a second parameter, and nothing of it is written.
    assert!(write_preferred(&mut writer, FOUR, SIX, &[1], [9; 16]).is_err());
    assert_eq!(writer.off(), 45);
    assert_eq!((written[0], &written[1..45], written[45]), (7, PREFERRED.as_slice(), 0));
}

#[test]
fn preferred_address_that_fails() {
    for n in 0..PREFERRED.len() {
        let mut cursor = Octets::with_slice(&PREFERRED[..n]);
        assert_eq!(read_preferred(&mut cursor).err(), Some(PreferredError::Short));
        assert_eq!(cursor.off(), 0);
    }
    for (len, is_read) in [(0, false), (1, true), (20, true), (21, false), (255, false)] {
        let mut packet = [1; 300];
        packet[24] = len;
        let mut cursor = Octets::with_slice(&packet);
        let error = read_preferred(&mut cursor).err();
        assert_eq!(error, if is_read { None } else { Some(PreferredError::BadId) });
        assert_eq!(cursor.off(), if is_read { 41 + usize::from(len) } else { 0 });
    }
}

#[test]
fn preferred_address_is_read_back() {
    for len in [1, 20] {
        let (mut buffer, id) = ([0; 61], [5; 20]);
        let read = write_and_read(&mut buffer, FOUR, SIX, &id[..len], [8; 16]).expect("a parameter");
        assert_eq!(((read.four, read.four_port), (read.six, read.six_port)), (FOUR, SIX));
        assert_eq!((read.id.buf(), read.token), (&id[..len], [8; 16]));
        let short = write_and_read(&mut buffer[..40 + len], FOUR, SIX, &id[..len], [8; 16]).err();
        assert_eq!(short, Some(PreferredError::Short));
    }
}
