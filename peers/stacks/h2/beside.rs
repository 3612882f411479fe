//! Compares the Huffman code of `octets`, in the module above, with h2's own, in the module `theirs`.
use super::theirs;
use bytes::BytesMut;
use rand::{rngs::StdRng, Rng, SeedableRng};

fn assert_same_decode(src: &[u8]) {
    let (mut buf, mut their_buf) = (BytesMut::new(), BytesMut::new());
    assert_eq!(super::decode(src, &mut buf), theirs::decode(src, &mut their_buf), "of {:02x?}", src);
}

fn encode(value: &[u8]) -> BytesMut {
    let (mut encoding, mut theirs) = (BytesMut::from("before"), BytesMut::from("before"));
    super::encode(value, &mut encoding);
    theirs::encode(value, &mut theirs);
    assert_eq!(encoding, theirs, "of {:02x?}", value);
    encoding.split_off("before".len())
}

/// A value of up to 60 bytes: in one half of the cases any bytes, and letters in the other.
fn value(random: &mut StdRng) -> Vec<u8> {
    let is_text = random.gen();
    let len = random.gen_range(0..60);
    (0..len).map(|_| if is_text { random.gen_range(b' '..=b'~') } else { random.gen() }).collect()
}

#[test]
fn strings_are_encoded_and_decoded_as_by_h2() {
    let mut random = StdRng::seed_from_u64(1);
    for _ in 0..200_000 {
        let mut encoding = encode(&value(&mut random));
        assert_same_decode(&encoding);
        for _ in 0..random.gen_range(0..3) {
            let len = random.gen_range(0..=encoding.len());
            encoding.truncate(len);
            encoding.extend((0..random.gen_range(0..3)).map(|_| random.gen::<u8>() | random.gen::<u8>()));
            assert_same_decode(&encoding);
        }
    }
}

#[test]
fn all_strings_of_two_bytes_are_decoded_as_by_h2() {
    for bytes in 0..=u16::MAX {
        assert_same_decode(&bytes.to_be_bytes());
        encode(&bytes.to_be_bytes());
    }
}
