//! Tests of decodes of an encoding that comes in pieces.
#![cfg(feature = "more")]
use octets::more::*;
use octets::{Octets, OctetsMut};
use std::error::Error;

/// Encodings and values of RFC 7541, appendices C.4 and C.6.
const ROWS: [(&[u8], &[u8]); 9] = [
    (b"\xf1\xe3\xc2\xe5\xf2\x3a\x6b\xa0\xab\x90\xf4\xff", b"www.example.com"),
    (b"\xa8\xeb\x10\x64\x9c\xbf", b"no-cache"),
    (b"\x25\xa8\x49\xe9\x5b\xa9\x7d\x7f", b"custom-key"),
    (b"\x25\xa8\x49\xe9\x5b\xb8\xe8\xb4\xbf", b"custom-value"),
    (b"\x64\x02", b"302"),
    (b"\xae\xc3\x77\x1a\x4b", b"private"),
    (b"\x64\x0e\xff", b"307"),
    (b"\x9b\xd9\xab", b"gzip"),
    (b"", b""),
];

/// Decodes two pieces into so much room at a time, which is at least two bytes.
fn decoded(pieces: &[&[u8]], room: usize) -> Result<Vec<u8>, Box<dyn Error>> {
    let (mut decoder, mut value) = (Decoder::new(), Vec::new());
    for piece in pieces {
        let mut rest = *piece;
        while !rest.is_empty() {
            let mut out = vec![0xa5; room];
            let Progress { read, written } = decoder.decode(rest, &mut out)?;
            assert!(read > 0 && out[written..].iter().all(|&byte| byte == 0xa5));
            value.extend(&out[..written]);
            rest = &rest[read..];
            decoder = Decoder::of_byte(decoder.to_byte());
        }
    }
    decoder.finish()?;
    Ok(value)
}

#[test]
fn an_encoding_is_decoded_wherever_it_is_cut() {
    for (text, value) in ROWS {
        for first in 0..=text.len() {
            for second in first..=text.len() {
                let pieces = [&text[..first], &text[first..second], &text[second..]];
                for room in [2, 3, 64] {
                    assert_eq!(decoded(&pieces, room).unwrap(), value);
                }
                for room in 0..20 {
                    let mut out = [0xa5; 20];
                    let result = decode_pieces(&pieces, &mut out[..room]);
                    let kept = room.min(value.len());
                    assert_eq!(
                        result.map_err(|error| error.why),
                        if room < value.len() { Err(IntoError::NoRoom) } else { Ok(kept) }
                    );
                    assert!(out[..kept] == value[..kept] && out[kept..].iter().all(|&byte| byte == 0xa5));
                }
            }
        }
    }
}

/// The results, errors and what is left in the slice are those of one decode of the joined bytes.
#[test]
fn damaged_encodings_fail_as_in_one_decode() {
    for (text, _) in ROWS {
        for bit in 0..8 * text.len() {
            let mut text = text.to_vec();
            text[bit / 8] ^= 0x80 >> (bit % 8);
            for cut in 0..=text.len() {
                for room in [0, 1, 2, 5, 20] {
                    let (mut pieces_out, mut whole_out) = ([0xa5; 20], [0xa5; 20]);
                    let mut cursor = Octets::with_slice(&text);
                    let whole = cursor.get_huffman_decoded_into(&mut whole_out[..room]);
                    let pieces = decode_pieces(&[&text[..cut], &text[cut..]], &mut pieces_out[..room]);
                    assert_eq!(pieces, whole.map_err(|why| PiecesError { passed: cursor.off() as u128, why }));
                    assert_eq!(pieces_out, whole_out);
                }
            }
        }
    }
}

/// EOS has 30 one bits. Here it follows the code of `a`, which has five bits, 00011.
#[test]
fn eos_is_an_error_wherever_it_is_cut() {
    let text = b"\x1f\xff\xff\xff\xff\xff";
    for cut in 0..=5 {
        let mut decoder = Decoder::new();
        let mut out = [0xa5; 4];
        let (first, second) = text.split_at(cut);
        let Err(EosError { read, written }) = decoder.decode(first, &mut out).and_then(|progress| {
            assert_eq!(progress.read, cut);
            decoder
                .decode(second, &mut out[progress.written..])
                .map_err(|error| EosError { read: cut + error.read, written: progress.written + error.written })
        }) else {
            panic!("EOS was decoded");
        };
        assert_eq!((read, written, out), (4, 1, *b"a\xa5\xa5\xa5"));
        assert_eq!(decoder.decode(b"\xff", &mut out), Err(EosError { read: 0, written: 0 }));
        assert_eq!(decoder.finish(), Err(IncompleteError));
    }
}

#[test]
fn an_encoding_ends_after_at_most_seven_one_bits() {
    for (text, ends) in [
        (&b"\x1f"[..], true),
        (b"\x3f\xff", false),
        (b"\xff", false),
        (b"\x18", false),
        (b"\x1f\xff", false),
        (b"\xff\xc7", true),
    ] {
        let mut decoder = Decoder::new();
        decoder.decode(text, &mut [0; 4]).unwrap();
        assert_eq!(decoder.finish().is_ok(), ends, "{text:x?}");
    }
}

#[test]
fn long_values_are_decoded_in_pieces_of_every_length() {
    let value: Vec<u8> = (0..200_000u32).map(|at| (at.wrapping_mul(at) >> 7) as u8).collect();
    let mut text = vec![0; 4 * value.len()];
    let mut cursor = OctetsMut::with_slice(&mut text);
    cursor.put_huffman_encoded::<false>(&value).unwrap();
    let len = cursor.off();
    for piece in [1, 2, 3, 7, 64, 1000, len] {
        let pieces: Vec<&[u8]> = text[..len].chunks(piece).collect();
        let mut out = vec![0; value.len()];
        assert_eq!(decode_pieces(&pieces, &mut out), Ok(value.len()));
        assert_eq!(out, value);
    }
}

#[test]
fn the_errors_have_texts() {
    let eos = EosError { read: 3, written: 1 };
    let errors: [(&dyn Error, &str); 4] = [
        (&eos, "the encoding contains EOS"),
        (&IncompleteError, "the encoding ends within a code"),
        (&PiecesError { passed: 2, why: IntoError::NoRoom }, "the value is longer than the slice"),
        (&PiecesError { passed: 2, why: IntoError::NotText { written: 1 } }, "the bytes are no Huffman text"),
    ];
    for (error, text) in errors {
        assert_eq!(error.to_string(), text);
        assert!(error.source().is_none());
    }
    assert_eq!(format!("{eos:?}"), "EosError { read: 3, written: 1 }");
    assert_eq!(size_of::<Decoder>(), 1);
}
