//! Tests that the items of the crate have the types of those of `octets` 0.3.7. They only have to compile.
use octets::*;

include!("items.rs");

#[test]
fn items_are_as_typed() {
    items();
}

/// A cursor implements no other trait that converts it, and can be compared only with a cursor of its type: otherwise
/// the compiler couldn't infer what `any` returns.
#[test]
fn no_other_trait_is_there() {
    lack!(std::panic::UnwindSafe, From<&'static mut [u8]>; (OctetsMut));
    lack!(From<&'static [u8]>; (Octets));
    lack!(Into<Vec<u8>>, Into<&'static [u8]>, IntoIterator, std::ops::Deref, std::borrow::Borrow<[u8]>; (Octets, OctetsMut));
    fn any<T>() -> T {
        unreachable!()
    }
    let _ = |one: Octets<'_>, other: OctetsMut<'_>| (one == any(), other == any());
}

/// The field of a cursor is private, so its constructor is too: only `with_slice` makes a cursor. If the crate had a function of
/// one of these names, the name would be ambiguous, and this test wouldn't compile.
#[test]
fn no_cursor_is_made_of_another_one() {
    mod others {
        #[allow(non_snake_case)]
        pub fn Octets() {}
        #[allow(non_snake_case)]
        pub fn OctetsMut() {}
    }
    #[allow(unused_imports)]
    use {octets::*, others::*};
    Octets();
    OctetsMut();
}

/// No call is `#[must_use]` if it succeeds, and none is deprecated: a program that denies these warnings compiles.
#[test]
#[deny(unused_must_use, deprecated)]
#[allow(clippy::needless_borrows_for_generic_args)]
fn no_call_warns() {
    fn both(mut one: Octets<'_>, mut other: OctetsMut<'_>) -> Result<()> {
        macro_rules! each {
            ($cursor:ident) => {
                $cursor.to_vec();
                $cursor.cap();
                $cursor.len();
                $cursor.off();
                $cursor.is_empty();
                $cursor.buf();
                $cursor.as_ref();
                $cursor.skip(0)?;
                $cursor.rewind(0)?;
                $cursor.peek_u8()?;
                $cursor.get_u8()?;
                $cursor.get_u16()?;
                $cursor.get_u24()?;
                $cursor.get_u32()?;
                $cursor.get_u64()?;
                $cursor.get_varint()?;
                $cursor.get_bytes(0)?;
                $cursor.peek_bytes(0)?;
                $cursor.get_bytes_with_u8_length()?;
                $cursor.get_bytes_with_u16_length()?;
                $cursor.get_bytes_with_varint_length()?;
            };
        }
        each!(one);
        one.slice(0)?;
        one.slice_last(0)?;
        each!(other);
        other.rewind(other.off())?;
        other.as_mut();
        other.put_u8(0)?;
        other.put_u16(0)?;
        other.put_u24(0)?;
        other.put_u32(0)?;
        other.put_u64(0)?;
        other.put_varint(0)?;
        other.put_varint_with_len(0, 1)?;
        other.get_bytes_mut(0)?;
        other.peek_bytes_mut(0)?;
        other.split_at(0)?;
        varint_len(0);
        varint_parse_len(0);
        Octets::with_slice(&[]);
        OctetsMut::with_slice(&mut []);
        Ok(())
    }
    let mut room = [0; 40];
    assert_eq!(both(Octets::with_slice(&[0; 40]), OctetsMut::with_slice(&mut room)), Ok(()));
}
