//! Numbers, flags and varints.

use octets::{Octets, OctetsMut};
use octets_fields::addresses::read_address;
use octets_fields::flags::{DnsFlags, TcpFlags, read_dns_flags, read_flags, write_dns_flags};
use octets_fields::groups::{LenError, read_len, write_len};
use octets_fields::lengths::{read_length, write_length};
use octets_fields::number_by_width::{read_by_width, write_by_width};
use octets_fields::numbers::{read_u16_le, read_u32_le, read_u48, write_u16_le, write_u32_le, write_u48};
use octets_fields::shortest::{FrameError, read_longer, read_typed};
use octets_fields::varints::{read_four, read_frame, read_two};
use octets_formats::in_place::{apply_mask, set_u16};
use octets_formats::points::write_point;
use std::net::Ipv4Addr;

#[test]
fn numbers_by_their_width() {
    let bytes = [0xac, 0x5c, 0x02, 0x9b, 0x32];
    assert_eq!(read_by_width(&mut Octets::with_slice(&bytes), 0x40), Ok(0xac));
    assert_eq!(read_by_width(&mut Octets::with_slice(&bytes), 0x41), Ok(0xac5c));
    assert_eq!(read_by_width(&mut Octets::with_slice(&bytes), 0x42), Ok(0x00ac_5c02));
    assert_eq!(read_by_width(&mut Octets::with_slice(&bytes), 0x43), Ok(0xac5c_029b));
    assert!(read_by_width(&mut Octets::with_slice(&bytes[..3]), 0x43).is_err());
    let mut written = [9; 4];
    assert!(write_by_width(&mut OctetsMut::with_slice(&mut written), 0x00ac_5c02, 3).is_ok());
    assert_eq!(written, [0xac, 0x5c, 2, 9]);
}

/// A segment with SYN and ACK (RFC 9293, section 3.1), and a response with a recursive answer.
#[test]
fn flags_of_tcp_and_dns() {
    let syn_ack = TcpFlags { urg: false, ack: true, psh: false, rst: false, syn: true, fin: false };
    assert_eq!(read_flags(&mut Octets::with_slice(&[0x12])), Ok(syn_ack));
    let refused = DnsFlags { response: true, opcode: 4, rcode: 5 };
    assert_eq!(read_dns_flags(&mut Octets::with_slice(&[0xa5, 0x85])), Ok(refused));
    let mut written = [9; 2];
    assert!(write_dns_flags(&mut OctetsMut::with_slice(&mut written), refused).is_ok());
    assert_eq!(written, [0xa0, 5]);
}

/// The bounds of each size in MQTT 5.0, table 1-1.
#[test]
fn groups_of_seven_bits() {
    assert_eq!(read_len(&mut Octets::with_slice(&[0x7f])), Ok(127));
    assert_eq!(read_len(&mut Octets::with_slice(&[0x80, 1])), Ok(128));
    assert_eq!(read_len(&mut Octets::with_slice(&[0xff, 0x7f])), Ok(16_383));
    assert_eq!(read_len(&mut Octets::with_slice(&[0x80, 0x80, 1])), Ok(16_384));
    assert_eq!(read_len(&mut Octets::with_slice(&[0xff, 0xff, 0xff, 0x7f])), Ok(268_435_455));
    assert_eq!(read_len(&mut Octets::with_slice(&[0x80])), Err(LenError::Short));
    assert_eq!(read_len(&mut Octets::with_slice(&[0x80, 0])), Err(LenError::Malformed));
    let mut written = [9; 4];
    assert!(write_len(&mut OctetsMut::with_slice(&mut written), 2_097_151).is_ok());
    assert_eq!(written, [0xff, 0xff, 0x7f, 9]);
}

#[test]
fn lengths_of_one_or_three_bytes() {
    assert_eq!(read_length(&mut Octets::with_slice(&[127])), Ok(127));
    assert_eq!(read_length(&mut Octets::with_slice(&[130, 1, 0])), Ok(256));
    assert!(read_length(&mut Octets::with_slice(&[129, 1, 0])).is_err());
    let mut written = [9; 3];
    assert!(write_length(&mut OctetsMut::with_slice(&mut written), 128).is_ok());
    assert_eq!(written, [130, 0, 128]);
}

/// The varints of RFC 9000, appendix A.1.
#[test]
fn varints_of_the_rfc() {
    let bytes = [0x7b, 0xbd, 0x25, 0x9d, 0x7f, 0x3e, 0x7d, 0x40, 0x25];
    assert_eq!(read_two(&mut Octets::with_slice(&bytes)), Ok((15_293, 37)));
    assert_eq!(read_four(&mut Octets::with_slice(&bytes)), Ok((15_293, 37, 494_878_333, 37)));
    assert!(read_four(&mut Octets::with_slice(&bytes[..8])).is_err());
    let mut frame = Octets::with_slice(&[0x40, 0x25, 2, 8, 9, 7]);
    let read = read_frame(&mut frame);
    assert!(read.is_ok_and(|f| f.0 == 37 && f.1.buf() == [8, 9].as_slice()));
    assert_eq!(frame.off(), 5);
}

#[test]
fn types_in_their_shortest_form() {
    assert_eq!(read_typed(&mut Octets::with_slice(&[8, 0x40, 0x25])), Ok((8, 37)));
    assert_eq!(read_typed(&mut Octets::with_slice(&[0x40, 8, 1])), Err(FrameError::Overlong));
    assert_eq!(read_typed(&mut Octets::with_slice(&[8, 0x40])), Err(FrameError::Short));
    assert_eq!(read_longer(&mut Octets::with_slice(&[8, 1, 1, 2])), Ok((8, 1, 258)));
    assert_eq!(read_longer(&mut Octets::with_slice(&[8, 1, 1])), Err(FrameError::Short));
}

#[test]
fn numbers_of_other_forms() {
    let bytes = [1, 2, 3, 4, 5, 6];
    assert_eq!(read_u48(&mut Octets::with_slice(&bytes)), Ok(0x0102_0304_0506));
    assert_eq!(read_u16_le(&mut Octets::with_slice(&bytes)), Ok(0x0201));
    assert_eq!(read_u32_le(&mut Octets::with_slice(&bytes)), Ok(0x0403_0201));
    let mut written = [9; 12];
    let mut cursor = OctetsMut::with_slice(&mut written);
    assert!(write_u48(&mut cursor, 0x0102_0304_0506).is_ok());
    assert!(write_u16_le(&mut cursor, 0x0201).is_ok());
    assert!(write_u32_le(&mut cursor, 0x0403_0201).is_ok());
    assert_eq!(written, [1, 2, 3, 4, 5, 6, 1, 2, 1, 2, 3, 4]);
}

/// The mask and the masked text "Hello" of RFC 6455, section 5.7.
#[test]
fn bytes_changed_in_place() {
    let mut payload = [0x7f, 0x9f, 0x4d, 0x51, 0x58];
    apply_mask(&mut payload, [0x37, 0xfa, 0x21, 0x3d]);
    assert_eq!(payload, [0x48, 0x65, 0x6c, 0x6c, 0x6f]);
    assert!(set_u16(&mut payload, 2, 258).is_ok());
    assert!(set_u16(&mut payload, 4, 258).is_err());
    assert_eq!(payload, [0x48, 0x65, 1, 2, 0x6f]);
}

#[test]
fn addresses_and_points() {
    let read = read_address(&mut Octets::with_slice(&[192, 0, 2, 1]));
    assert_eq!(read, Ok(Ipv4Addr::new(192, 0, 2, 1)));
    let mut written = [9; 8];
    assert!(write_point(&mut OctetsMut::with_slice(&mut written), 1, 258).is_ok());
    assert_eq!(written, [0, 0, 0, 1, 0, 0, 1, 2]);
}
