//! What the examples write and read, for values that their `main` doesn't try.
use octets::{BufferTooShortError, Octets, OctetsMut};

#[allow(dead_code)]
#[path = "../../examples/length.rs"]
mod length;
#[allow(dead_code)]
#[path = "../../examples/packet.rs"]
mod packet;

#[test]
fn packets_have_payloads_of_each_width_of_length() {
    for len in [0, 1, 63, 64, 255, 256, 300, 16_383, 16_384, 100_000] {
        let payload: Vec<u8> = (0..len).map(|at| at as u8).collect();
        let mut bytes = vec![0; len + 7];
        let end = packet::write_packet(&mut bytes, 7, 0x102, &payload).unwrap();
        assert_eq!(packet::read_packet(&bytes[..end]), Ok((7, 0x102, payload.as_slice())));
        assert_eq!(packet::read_packet(&bytes[..end - 1]), Err(BufferTooShortError));
    }
}

#[test]
fn frames_have_a_length_of_two_bytes() {
    let word = "w".repeat(255);
    for count in [0, 1, 63] {
        let len = 256 * count;
        let mut bytes = vec![0xaa; len + 3];
        let mut cursor = OctetsMut::with_slice(&mut bytes);
        length::write_frame(&mut cursor, &vec![word.as_str(); count]).unwrap();
        assert_eq!(cursor.off(), len + 2);
        assert_eq!(bytes[..2], (0x4000 + len as u16).to_be_bytes());
        assert_eq!(bytes[len + 2], 0xaa);
        let mut frame = Octets::with_slice(&bytes).get_bytes_with_varint_length().unwrap();
        for _ in 0..count {
            assert_eq!(frame.get_bytes_with_u8_length().unwrap().buf(), word.as_bytes());
        }
        assert_eq!(frame.cap(), 0);
    }
}

#[test]
fn frames_that_are_too_long_are_refused() {
    let mut bytes = vec![0; 70_000];
    let long = ["w".repeat(256), "w".repeat(257), "w".repeat(65_536)];
    for word in &long {
        let refused = length::write_frame(&mut OctetsMut::with_slice(&mut bytes), &[word]);
        assert_eq!(refused, Err(BufferTooShortError));
    }
    // The last of these frames has a payload of 16,383 bytes.
    let (word, short) = ("w".repeat(255), "w".repeat(254));
    let mut words = vec![word.as_str(); 64];
    let refused = length::write_frame(&mut OctetsMut::with_slice(&mut bytes), &words);
    assert_eq!(refused, Err(BufferTooShortError));
    words[63] = &short;
    length::write_frame(&mut OctetsMut::with_slice(&mut bytes), &words).unwrap();
    assert_eq!(bytes[..2], [0x7f, 0xff]);
}

#[test]
fn bytes_are_printed_in_lower_case() {
    assert_eq!(packet::hex(&[0xab, 0, 0x0f, 0x10, 0xff]), "ab000f10ff");
}
