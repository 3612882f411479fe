//! Lists of numbers, records and names, and the options of DHCP. The codes of the options are
//! those of RFC 2132: 1 is the subnet mask (section 3.3), and 53 the type of the message
//! (section 9.6).

use octets::{Octets, OctetsMut};
use octets_lists::copies::read_names;
use octets_lists::dhcp::{DhcpOptions, read_option};
use octets_lists::domain_names::{pass_domain_name, read_question};
use octets_lists::extensions::{Extension, write_extensions};
use octets_lists::ids::{read_counted_ids, read_ids, read_ids_into, write_ids};
use octets_lists::known::{Known, read_known};
use octets_lists::marked::{ListError, pass_list};
use octets_lists::name_lists::pass_names;
use octets_lists::nested_loops::count_numbers;
use octets_lists::settings::read_settings;
use octets_lists::varint_lists::read_varints;
use rattle_std::alloc::Global;

#[test]
fn lists_of_ids() {
    let bytes = [2, 0, 0, 0, 1, 0, 0, 1, 2];
    let counted = read_counted_ids(Global, &mut Octets::with_slice(&bytes));
    assert!(counted.is_ok_and(|ids| ids.as_slice() == [1, 258].as_slice()));
    assert!(read_counted_ids(Global, &mut Octets::with_slice(&bytes[..8])).is_err());
    let read = read_ids(Global, &mut Octets::with_slice(&bytes[1..]), 2);
    assert!(read.is_ok_and(|ids| ids.as_slice() == [1, 258].as_slice()));
    let mut out = [9; 3];
    assert!(read_ids_into(&mut Octets::with_slice(&bytes[1..]), 2, &mut out).is_ok());
    assert_eq!(out, [1, 258, 9]);
    assert!(read_ids_into(&mut Octets::with_slice(&bytes[1..]), 3, &mut out).is_err());
    let mut written = [9; 6];
    assert!(write_ids(&mut OctetsMut::with_slice(&mut written), &[37, 15_293, 37]).is_ok());
    assert_eq!(written, [0x25, 0x7b, 0xbd, 0x25, 9, 9]);
}

#[test]
fn groups_of_records() {
    let bytes = [2, 0, 1, 0, 2, 3, 0, 3, 0, 0];
    assert_eq!(count_numbers(&mut Octets::with_slice(&bytes)), Ok(3));
    assert!(count_numbers(&mut Octets::with_slice(&bytes[..6])).is_err());
}

/// The extension server_name of TLS for "a", and an empty one (RFC 8446, section 4.2).
#[test]
fn extensions_are_written() {
    let all = [Extension { kind: 0, value: &[0x61] }, Extension { kind: 49, value: &[] }];
    let mut written = [9; 10];
    assert!(write_extensions(&mut OctetsMut::with_slice(&mut written), &all).is_ok());
    assert_eq!(written, [0, 0, 0, 1, 0x61, 0, 49, 0, 0, 9]);
}

#[test]
fn names_after_their_lengths() {
    let bytes = [1, 0x61, 0, 2, 0x62, 0x63];
    let mut cursor = Octets::with_slice(&bytes);
    assert!(pass_names(&mut cursor).is_ok() && cursor.cap() == 0);
    assert!(pass_names(&mut Octets::with_slice(&bytes[..5])).is_err());
    let names = read_names(Global, &mut Octets::with_slice(&bytes), 3);
    assert!(names.is_ok_and(|all| all.last().is_some_and(|name| name.as_slice() == [0x62, 0x63].as_slice())));
    assert!(read_names(Global, &mut Octets::with_slice(&bytes), 4).is_err());
}

/// SETTINGS_MAX_FIELD_SECTION_SIZE (RFC 9114, section 7.2.4.1) with 16,384, and another setting.
#[test]
fn lists_of_varints() {
    let bytes = [6, 0x80, 0, 0x40, 0, 0x40, 0x25, 1];
    let settings = read_settings(Global, &mut Octets::with_slice(&bytes));
    assert!(settings.is_ok_and(|all| all.as_slice() == [(6, 16_384), (37, 1)].as_slice()));
    assert!(read_settings(Global, &mut Octets::with_slice(&bytes[..7])).is_err());
    let values = read_varints(Global, &mut Octets::with_slice(&bytes), 3);
    assert!(values.is_ok_and(|all| all.as_slice() == [6, 16_384, 37].as_slice()));
}

#[test]
fn records_in_any_order() {
    let known = Known { port: Some(258), size: None };
    assert_eq!(read_known(&mut Octets::with_slice(&[1, 0, 1, 9, 0, 0, 1, 1, 2])), Ok(known));
    assert!(read_known(&mut Octets::with_slice(&[1, 0])).is_err());
}

/// A question for the address of "a.bc" (RFC 1035, section 4.1.2).
#[test]
fn question_of_dns() {
    let bytes = [1, 0x61, 2, 0x62, 0x63, 0, 0, 1, 0, 1];
    assert_eq!(read_question(&mut Octets::with_slice(&bytes)), Ok((1, 1)));
    assert!(read_question(&mut Octets::with_slice(&bytes[..9])).is_err());
    assert!(pass_domain_name(&mut Octets::with_slice(&[0xc0, 0x0c])).is_err());
}

#[test]
fn list_to_its_mark() {
    let bytes = [1, 2, 7, 8, 254, 0, 0, 9];
    let mut cursor = Octets::with_slice(&bytes);
    assert_eq!(pass_list(&mut cursor), Ok(()));
    assert_eq!(cursor.off(), 7);
    assert_eq!(pass_list(&mut Octets::with_slice(&bytes[..6])), Err(ListError::NoMark));
    assert_eq!(pass_list(&mut Octets::with_slice(&bytes[..3])), Err(ListError::Cut));
    assert_eq!(pass_list(&mut Octets::with_slice(&[1, 0, 255, 0])), Err(ListError::Reserved));
}

/// A pad option, a request, another pad option, a subnet mask, the end option, and a byte after it.
static OPTIONS: [u8; 13] = [0, 53, 1, 3, 0, 1, 4, 255, 255, 255, 0, 255, 53];

#[test]
fn options_to_the_end() {
    let mut options = DhcpOptions::of(Octets::with_slice(&OPTIONS));
    let kind = options.next().expect("an item").expect("an option");
    assert!(kind.code == 53 && kind.value.buf() == [3].as_slice());
    let mask = options.next().expect("an item").expect("an option");
    assert!(mask.code == 1 && mask.value.buf() == [255, 255, 255, 0].as_slice());
    assert!(options.next().is_none());
    assert!(options.next().is_none());
}

#[test]
fn options_cut_off() {
    let mut options = DhcpOptions::of(Octets::with_slice(&OPTIONS[..10]));
    assert!(options.next().expect("an item").is_ok());
    assert!(options.next().expect("an item").is_err());
    assert!(options.next().is_none());
}

#[test]
fn option_by_option() {
    let mut cursor = Octets::with_slice(&OPTIONS);
    let kind = read_option(&mut cursor).expect("a read").expect("an option");
    assert!(kind.code == 53 && cursor.off() == 4);
    let mask = read_option(&mut cursor).expect("a read").expect("an option");
    assert!(mask.code == 1 && cursor.off() == 11);
    assert_eq!(read_option(&mut cursor), Ok(None));
    assert_eq!(cursor.off(), 12);
}

/// Returns whether a read fails, and leaves the offset where it was.
fn is_refused(bytes: &[u8]) -> bool {
    let mut cursor = Octets::with_slice(bytes);
    read_option(&mut cursor).is_err() && cursor.off() == 0
}

#[test]
fn options_refused() {
    assert!(is_refused(&[]));
    assert!(is_refused(&[0, 0]));
    assert!(is_refused(&[0, 53]));
    assert!(is_refused(&[0, 53, 2, 3]));
    assert!(!is_refused(&[0, 53, 0]));
}
