//! Tests of the calls that panic, and of their messages.
use octets::{MAX_VAR_INT, OctetsMut, varint_len};
use std::panic::{AssertUnwindSafe, UnwindSafe, catch_unwind};

const UNREACHABLE: &str = "internal error: entered unreachable code";
const TOO_LARGE: &str = "value is too large for varint";

fn message(call: impl FnOnce() + UnwindSafe) -> String {
    let Err(what) = catch_unwind(call) else {
        return String::new();
    };
    what.downcast_ref::<&str>().expect("a message").to_string()
}

#[test]
fn no_varint_holds_more_than_62_bits() {
    // Bit 62, bit 63 or both are set, with other bits and without.
    for v in [1 << 62, (1 << 62) + 37, 1 << 63, (1 << 63) + 37, (1 << 63) + MAX_VAR_INT, 3 << 62, u64::MAX] {
        assert_eq!(message(move || _ = varint_len(v)), UNREACHABLE);
        for room in 0..=9 {
            let mut bytes = vec![0; room];
            let put = move || _ = OctetsMut::with_slice(&mut bytes).put_varint(v);
            assert_eq!(message(put), UNREACHABLE);
        }
    }
    assert_eq!(message(|| _ = varint_len(MAX_VAR_INT)), "");
}

#[test]
fn a_width_that_no_varint_has_panics_where_there_is_room() {
    for (len, room, said) in [
        (0, 0, TOO_LARGE),
        (0, 8, TOO_LARGE),
        (3, 3, TOO_LARGE),
        (5, 8, TOO_LARGE),
        (7, 8, TOO_LARGE),
        (9, 9, TOO_LARGE),
        (16, 16, TOO_LARGE),
        (3, 2, ""),
        (9, 8, ""),
        (usize::MAX, 8, ""),
    ] {
        for v in [0, 1, 2, 4, 8, 37, MAX_VAR_INT, u64::MAX] {
            let mut bytes = vec![0; room];
            let put = move || {
                assert!(OctetsMut::with_slice(&mut bytes).put_varint_with_len(v, len).is_err());
                assert!(bytes.iter().all(|byte| *byte == 0));
            };
            assert_eq!(message(put), said, "{v} in {len} bytes, room {room}");
        }
    }
}

/// If a program catches the panic of a call, the cursor is unchanged.
#[test]
fn a_panic_changes_nothing() {
    let mut bytes = [0xee; 16];
    let mut cursor = OctetsMut::with_slice(&mut bytes);
    cursor.skip(1).unwrap();
    for (v, len) in [(0, 0), (37, 3), (u64::MAX, 5), (u64::MAX, 9)] {
        let put = AssertUnwindSafe(|| _ = cursor.put_varint_with_len(v, len));
        assert_eq!(message(put), TOO_LARGE);
    }
    let put = AssertUnwindSafe(|| _ = cursor.put_varint(MAX_VAR_INT + 1));
    assert_eq!(message(put), UNREACHABLE);
    assert_eq!((cursor.off(), cursor.buf()), (1, &[0xee; 16][..]));
}

/// The call compares the width with the number of bytes that remain, not with the length of the buffer.
#[test]
fn a_width_that_no_varint_has_is_refused_where_fewer_remain() {
    let mut bytes = [0; 8];
    let mut cursor = OctetsMut::with_slice(&mut bytes);
    cursor.skip(4).unwrap();
    for (v, len) in [(0, 5), (1, 8), (u64::MAX, 7), (u64::MAX, 8)] {
        assert!(cursor.put_varint_with_len(v, len).is_err());
    }
    assert_eq!((cursor.off(), cursor.buf()), (4, &[0; 8][..]));
}
