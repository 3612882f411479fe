//! Byte strings, texts and fields that may be absent.

use octets::{Octets, OctetsMut};
use octets_fields::arrays::{Point, Transaction, read_array, read_id, read_kind_and_id, read_point, write_transaction};
use octets_fields::fixed_lengths::{Flow, addresses, read_before_padding, read_flow, read_sealed, view_at};
use octets_fields::padded::{next_padded, read_attribute, read_opaque, read_padded, write_padded};
use octets_fields::strings::{read_string, read_strings};
use octets_fields::utf8::{TextError, read_utf8};
use octets_fields::zeros::skip_padding;
use octets_formats::items::{find_item, next_item, read_item, read_numbers, read_value, write_item, write_numbers};
use octets_formats::loans::write_by_loan;
use octets_formats::optional::{read_last_word, read_name, read_word};
use octets_formats::pairs::{read_pair, read_pair_by_hand};
use octets_formats::unproved::{Sum, write_checked};

#[test]
fn items_are_read_and_written() {
    let bytes = [0, 7, 0, 1, 0xaa, 0, 8, 0, 2, 0xbb, 0xcc];
    let mut cursor = Octets::with_slice(&bytes);
    assert!(read_item(&mut cursor).is_ok_and(|item| item.0 == 7 && item.1.buf() == [0xaa].as_slice()));
    let mut cut = Octets::with_slice(&bytes[..10]);
    assert!(next_item(&mut cut).is_ok());
    assert!(next_item(&mut cut).is_err());
    assert_eq!(cut.off(), 5);
    let found = find_item(&mut Octets::with_slice(&bytes), 8);
    assert!(found.is_ok_and(|o| o.is_some_and(|body| body.buf() == [0xbb, 0xcc].as_slice())));
    assert!(find_item(&mut Octets::with_slice(&bytes), 9).is_ok_and(|o| o.is_none()));
    let mut written = [9; 6];
    assert!(write_item(&mut OctetsMut::with_slice(&mut written), 8, &[0xbb, 0xcc]).is_ok());
    assert_eq!(written, [0, 8, 0, 2, 0xbb, 0xcc]);
    let value = read_value(&mut Octets::with_slice(&[5, 1, 0xaa]));
    assert!(value.is_ok_and(|v| v.0 == 5 && v.1 == [0xaa].as_slice()));
}

#[test]
fn pairs_of_numbers() {
    let mut written = [9; 6];
    assert!(write_numbers(&mut OctetsMut::with_slice(&mut written), 258, 7).is_ok());
    assert_eq!(written, [1, 2, 0, 0, 0, 7]);
    assert_eq!(read_numbers(&mut OctetsMut::with_slice(&mut written)), Ok((258, 7)));
    assert_eq!(read_pair(&mut Octets::with_slice(&written)), Ok((258, 7)));
    assert_eq!(read_pair_by_hand(&mut Octets::with_slice(&written)), Ok((258, 7)));
    let mut lent = [9; 4];
    write_by_loan(&mut OctetsMut::with_slice(&mut lent), 5, 258);
    assert_eq!(lent, [5, 1, 2, 9]);
    let mut checked = [9; 3];
    assert!(write_checked(&mut OctetsMut::with_slice(&mut checked), &Sum, &[200, 100]).is_ok());
    assert_eq!(checked, [200, 100, 44]);
}

#[test]
fn arrays_of_bytes() {
    let bytes = [0, 1, 1, 2, 3, 4, 5, 6, 7, 8, 9, 10, 11, 12];
    let id = [1, 2, 3, 4, 5, 6, 7, 8, 9, 10, 11, 12];
    assert_eq!(read_id(&mut Octets::with_slice(&id)), Ok(id));
    assert_eq!(read_kind_and_id(&mut Octets::with_slice(&bytes)), Ok((1, id)));
    assert_eq!(read_array(&mut Octets::with_slice(&bytes)), Ok([0, 1, 1]));
    let mut written = [9; 14];
    assert!(write_transaction(&mut OctetsMut::with_slice(&mut written), Transaction { kind: 1, id }).is_ok());
    assert_eq!(written, bytes);
    assert_eq!(read_point(&mut Octets::with_slice(&[0, 5, 0, 0, 1, 2])), Ok(Point { x: 5, y: 258 }));
}

#[test]
fn fields_of_fixed_lengths() {
    let mut bytes = [1; 33];
    bytes[16] = 2;
    let mut cursor = Octets::with_slice(&bytes);
    let both = addresses(&mut cursor);
    assert_eq!(cursor.off(), 32);
    assert!(both.is_ok_and(|a| a.0.buf() == [1; 16].as_slice() && a.1.buf().first() == Some(&2)));
    let sealed = read_sealed(&mut Octets::with_slice(&bytes[..18]));
    assert!(sealed.is_ok_and(|s| s.payload.len() == 2 && s.tag.len() == 16));
    assert!(read_sealed(&mut Octets::with_slice(&bytes[..15])).is_err());
    let padded = read_before_padding(&mut Octets::with_slice(&[7, 8, 0, 2]));
    assert!(padded.is_ok_and(|p| p.buf() == [7, 8].as_slice()));
    assert!(read_before_padding(&mut Octets::with_slice(&[7, 0])).is_err());
    let cursor = Octets::with_slice(&[7, 8, 9]);
    assert!(view_at(&cursor, 1, 2).is_ok_and(|v| v.buf() == [8, 9].as_slice()));
    assert!(view_at(&cursor, 2, 2).is_err());
}

#[test]
fn fields_at_positions() {
    let record = [
        192, 0, 2, 1, 198, 51, 100, 7, 9, 9, 9, 9, 0, 1, 0, 2, 0, 0, 0, 3, 0, 0, 18, 52, 8, 8, 8, 8, 8, 8, 8, 8, 0, 80,
        0, 81, 0, 16, 6, 0, 0, 0, 0, 0, 24, 24, 0, 0,
    ];
    let mut cursor = Octets::with_slice(&record);
    let flow = read_flow(&mut cursor);
    assert_eq!(cursor.off(), 48);
    let wanted = Flow { source: 0xc0000201, destination: 0xc6336407, packets: 3, octets: 4660 };
    assert_eq!(flow, Ok(wanted));
    let mut short = Octets::with_slice(&record[..47]);
    assert!(read_flow(&mut short).is_err());
    assert_eq!(short.off(), 0);
}

#[test]
fn texts_to_a_zero_byte() {
    let mut cursor = Octets::with_slice(&[0x61, 0x62, 0, 0x63]);
    assert!(read_string(&mut cursor).is_ok_and(|v| v.buf() == [0x61, 0x62].as_slice()));
    assert_eq!(cursor.off(), 3);
    assert!(read_string(&mut cursor).is_err());
    let two = read_strings(&mut Octets::with_slice(&[0, 0x61, 0]));
    assert!(two.is_ok_and(|r| r.0.is_empty() && r.1.buf() == [0x61].as_slice()));
}

#[test]
fn texts_in_utf8() {
    assert_eq!(read_utf8(&mut Octets::with_slice(&[0, 2, 0xc3, 0xa9])), Ok("é"));
    assert_eq!(read_utf8(&mut Octets::with_slice(&[0, 1, 0xc3])), Err(TextError::NotUtf8));
    assert_eq!(read_utf8(&mut Octets::with_slice(&[0, 2, 0xc3])), Err(TextError::Short));
}

/// An attribute SOFTWARE of STUN (RFC 5389, section 15.10), with the text "abc".
#[test]
fn runs_with_padding() {
    let bytes = [0x80, 0x22, 0, 3, 0x61, 0x62, 0x63, 0];
    let read = read_attribute(&mut Octets::with_slice(&bytes));
    assert!(read.is_ok_and(|r| r.0 == 0x8022 && r.1.buf() == b"abc".as_slice()));
    let mut cursor = Octets::with_slice(&bytes[2..]);
    assert!(read_padded(&mut cursor).is_ok() && cursor.off() == 6);
    let mut cut = Octets::with_slice(&bytes[2..7]);
    assert!(next_padded(&mut cut).is_err() && cut.off() == 0);
    let mut opaque = Octets::with_slice(&[0, 0, 0, 1, 7, 0, 0, 0]);
    assert!(read_opaque(&mut opaque).is_ok_and(|v| v.buf() == [7].as_slice()) && opaque.cap() == 0);
    let mut written = [9; 7];
    assert!(write_padded(&mut OctetsMut::with_slice(&mut written), &[7, 8]).is_ok());
    assert_eq!(written, [0, 2, 7, 8, 0, 0, 9]);
}

#[test]
fn fields_that_may_be_absent() {
    let bytes = [0, 0, 1, 2];
    assert_eq!(read_word(&mut Octets::with_slice(&bytes), true), Ok(Some(258)));
    assert_eq!(read_word(&mut Octets::with_slice(&bytes), false), Ok(None));
    assert_eq!(read_last_word(&mut Octets::with_slice(&bytes)), Ok(Some(258)));
    assert_eq!(read_last_word(&mut Octets::with_slice(&[])), Ok(None));
    assert!(read_last_word(&mut Octets::with_slice(&bytes[1..])).is_err());
    let name = read_name(&mut Octets::with_slice(&[0, 1, 7]), true);
    assert!(name.is_ok_and(|o| o.is_some_and(|v| v.buf() == [7].as_slice())));
}

#[test]
fn padding_of_zeros() {
    let mut padded = Octets::with_slice(&[0, 0, 7, 0]);
    skip_padding(&mut padded);
    assert_eq!(padded.off(), 2);
}
