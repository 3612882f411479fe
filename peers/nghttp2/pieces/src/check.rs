//! Compares the decoders with each other and with one decode of the joined bytes.
use crate::decoders::{C, Incremental, Nghttp2, Rust};
use crate::encodings::{Random, cut, some_encoding};
use octets::Octets;
use octets::more::{IntoError, PiecesError, decode_pieces};

/// What a decode of all pieces returns: the value and how many bytes were passed, unless the encoding is sound.
#[derive(Debug, PartialEq, Eq)]
enum Outcome {
    Sound,
    Incomplete,
    Eos { passed: usize },
}

use Outcome::*;

/// By nghttp2, which doesn't say where it failed: then it decodes again, byte by byte.
fn by_nghttp2(pieces: &[&[u8]]) -> (Vec<u8>, Outcome) {
    let room = 2 * pieces.iter().map(|piece| piece.len()).sum::<usize>();
    let (mut value, mut other, mut ends) = (vec![0; room], vec![0; room], true);
    let mut decoder = Nghttp2::new(&mut value);
    for (at, piece) in pieces.iter().enumerate() {
        ends = decoder.decode(piece, at + 1 == pieces.len());
    }
    let (len, failed) = (decoder.len(), decoder.has_failed());
    value.truncate(len);
    if !failed {
        return (value, if ends { Sound } else { Incomplete });
    }
    let mut again = Nghttp2::new(&mut other);
    let before = |byte: &&u8| {
        again.decode(&[**byte], false);
        !again.has_failed()
    };
    let passed = pieces.iter().copied().flatten().take_while(before).count() + 1;
    (value, Eos { passed })
}

/// By one of ours, into so little room at a time that it often stops. The bytes behind what is written have to stay.
fn by_ours<D: Incremental>(random: &mut Random, pieces: &[&[u8]], most_room: usize) -> (Vec<u8>, Outcome) {
    let (mut decoder, mut value, mut passed) = (D::new(), Vec::new(), 0);
    for piece in pieces {
        let mut rest = *piece;
        loop {
            let mut out = vec![0xa5; most_room + 4];
            let room = random.below(most_room + 1);
            let result = decoder.decode(rest, &mut out[..room]);
            let (read, written) =
                result.map_or_else(|error| (error.read, error.written), |done| (done.read, done.written));
            assert!(out[written..].iter().all(|&byte| byte == 0xa5), "bytes behind {written} changed");
            value.extend(&out[..written]);
            passed += read;
            rest = &rest[read..];
            if result.is_err() {
                return (value, Eos { passed: passed + 1 });
            }
            if rest.is_empty() {
                break;
            }
            assert!(read > 0 || room < 2, "no progress with room for {room} bytes");
        }
    }
    (value, if decoder.may_end() { Sound } else { Incomplete })
}

/// Under a random limit, `decode_pieces` has to return and to leave what one decode of the joined bytes does, and what
/// follows from the value and the outcome.
fn check_limit(random: &mut Random, text: &[u8], pieces: &[&[u8]], value: &[u8], outcome: &Outcome) {
    let room = random.below(value.len() + 3);
    let (mut out, mut other) = (vec![0xa5; room], vec![0xa5; room]);
    let mut cursor = Octets::with_slice(text);
    let whole = cursor.get_huffman_decoded_into(&mut other);
    let result = decode_pieces(pieces, &mut out);
    assert_eq!(result, whole.map_err(|why| PiecesError { passed: cursor.off() as u128, why }));
    assert_eq!(out, other);
    let wanted = match outcome {
        _ if room < value.len() => Err(IntoError::NoRoom),
        Sound => Ok(value.len()),
        Incomplete | Eos { .. } => Err(IntoError::NotText { written: value.len() }),
    };
    assert_eq!(whole, wanted);
    let kept = room.min(value.len());
    assert!(out[..kept] == value[..kept] && out[kept..].iter().all(|&byte| byte == 0xa5));
    if let (Eos { passed }, true) = (outcome, value.len() <= room) {
        assert_eq!(cursor.off(), *passed);
    }
}

pub fn all(count: u64, seed: u64) {
    let mut random = Random(seed.wrapping_mul(0x9e37_79b9_7f4a_7c15) | 1);
    let (mut counts, mut pieces_in_all) = ([0u64; 3], 0);
    for _ in 0..count {
        let text = some_encoding(&mut random);
        let pieces = cut(&mut random, &text);
        let (value, outcome) = by_nghttp2(&pieces);
        for most_room in [6, 2 * text.len() + 2] {
            let (by_rust, by_c) =
                (by_ours::<Rust>(&mut random, &pieces, most_room), by_ours::<C>(&mut random, &pieces, most_room));
            assert_eq!((&by_rust.0, &by_rust.1), (&value, &outcome), "Rust, {pieces:x?}");
            assert_eq!((&by_c.0, &by_c.1), (&value, &outcome), "C, {pieces:x?}");
        }
        check_limit(&mut random, &text, &pieces, &value, &outcome);
        pieces_in_all += pieces.len();
        counts[match outcome {
            Sound => 0,
            Incomplete => 1,
            Eos { .. } => 2,
        }] += 1;
    }
    let [sound, incomplete, eos] = counts;
    println!(
        "{count} encodings in {pieces_in_all} pieces: {sound} sound, {incomplete} incomplete, {eos} with EOS; 0 differ"
    );
}
