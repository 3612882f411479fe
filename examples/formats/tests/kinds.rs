//! Messages of several kinds, errors, and state between calls.

use octets::{Octets, OctetsMut};
use octets_fields::samples::{Sample, read_sample, write_sample};
use octets_formats::fragments::{FragmentError, PartialMessage};
use octets_formats::kinds::{Message, MessageError, read_message, read_wide_message, write_message};
use octets_formats::params::next_param;
use octets_formats::tagged::next_tagged;
use octets_formats::tokens::{TokenError, next_token, read_token};
use octets_formats::versions::{VersionError, read_version};
use octets_formats::within::read_long;
use rattle_std::alloc::Global;

#[test]
fn messages_of_three_kinds() {
    assert_eq!(read_message(&mut Octets::with_slice(&[1])), Ok(Message::Ping));
    assert_eq!(read_message(&mut Octets::with_slice(&[2, 0, 0, 1, 2])), Ok(Message::Number(258)));
    let text = Octets::with_slice(&[0x61]);
    assert_eq!(read_message(&mut Octets::with_slice(&[3, 0, 1, 0x61])), Ok(Message::Text(text)));
    assert_eq!(read_message(&mut Octets::with_slice(&[4])), Err(MessageError::Unknown(4)));
    assert_eq!(read_message(&mut Octets::with_slice(&[2, 0])), Err(MessageError::Short));
    let wide = read_wide_message(&mut Octets::with_slice(&[0x40, 2, 0, 0, 1, 2]));
    assert_eq!(wide, Ok(Message::Number(258)));
    let mut written = [9; 6];
    assert!(write_message(&mut OctetsMut::with_slice(&mut written), &Message::Number(258)).is_ok());
    assert_eq!(written, [2, 0, 0, 1, 2, 9]);
}

#[test]
fn fragments_in_their_order() {
    let mut message = PartialMessage::new(Global);
    assert!(message.take(&[0, 0, 7, 8]).is_ok());
    assert_eq!(message.take(&[0, 2, 9]), Err(FragmentError::NotNext));
    assert_eq!(message.take(&[0]), Err(FragmentError::Short));
    assert!(message.take(&[0, 1, 9]).is_ok());
    assert_eq!(message.bytes(), [7, 8, 9].as_slice());
}

#[test]
fn sample_of_44_bytes() {
    let sample = Sample { source: 1, sensor: 2, count: 3, begun: 4, ended: 5, sent: 6, value: 0x0102_0304_0506_0708 };
    let mut bytes = [9; 44];
    assert!(write_sample(&mut OctetsMut::with_slice(&mut bytes), sample).is_ok());
    assert!(bytes[3] == 1 && bytes[7] == 2 && bytes[11] == 3 && bytes[19] == 4 && bytes[27] == 5);
    assert!(bytes[35] == 6 && bytes[36] == 1 && bytes[43] == 8);
    assert_eq!(read_sample(&mut Octets::with_slice(&bytes)), Ok(sample));
    assert!(read_sample(&mut Octets::with_slice(&[9; 43])).is_err());
}

#[test]
fn errors_of_each_field() {
    let token = read_token(&mut Octets::with_slice(&[0, 0, 0, 1, 2, 7, 8]));
    assert!(token.is_ok_and(|t| t.0 == 1 && t.1.buf() == [7, 8].as_slice()));
    assert!(read_token(&mut Octets::with_slice(&[0, 0])).is_err_and(|e| e == TokenError::NoVersion));
    assert!(read_token(&mut Octets::with_slice(&[0, 0, 0, 1, 2, 7])).is_err_and(|e| e == TokenError::NoToken));
    let mut cut = Octets::with_slice(&[0, 0, 0, 1, 2, 7]);
    assert!(next_token(&mut cut).is_err_and(|e| e == TokenError::NoToken));
    assert_eq!(cut.off(), 0);
    assert_eq!(read_version(&mut Octets::with_slice(&[0, 0, 0, 1])), Ok(()));
    assert_eq!(read_version(&mut Octets::with_slice(&[0, 0, 0, 2])), Err(VersionError::Wrong));
    assert_eq!(read_version(&mut Octets::with_slice(&[0, 0, 0])), Err(VersionError::Short));
}

/// The parameter initial_max_data (RFC 9000, section 18.2) with the value 65,536.
#[test]
fn records_that_are_left_after_an_error() {
    let bytes = [4, 4, 0x80, 1, 0, 0];
    let param = next_param(&mut Octets::with_slice(&bytes));
    assert!(param.is_ok_and(|p| p.0 == 4 && p.1.buf() == &bytes[2..]));
    let mut cut = Octets::with_slice(&bytes[..5]);
    assert!(next_param(&mut cut).is_err() && cut.off() == 0);
    let mut tagged = Octets::with_slice(&[5, 0, 1, 7, 6, 0, 2, 7]);
    assert!(next_tagged(&mut tagged).is_ok_and(|r| r.0 == 5 && r.1.buf() == [7].as_slice()));
    assert!(next_tagged(&mut tagged).is_err() && tagged.off() == 4);
}

#[test]
fn readers_in_readers() {
    assert_eq!(read_long(&mut Octets::with_slice(&[5, 0, 0, 1, 2, 9])), Ok(258));
    assert!(read_long(&mut Octets::with_slice(&[3, 0, 0, 1, 2, 9])).is_err());
}
