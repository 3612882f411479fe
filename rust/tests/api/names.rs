//! Without a feature, or with `huffman_hpack` alone, the crate has no public item or method of the names below. A
//! program that imports all names of the crate can use them for its own items. If the crate had one of them too, it
//! would be ambiguous, and this test wouldn't compile.
#![cfg(not(feature = "more"))]
#![deny(ambiguous_glob_imports)]
#[allow(unused_imports)]
use octets::*;
use others::*;

/// Defines a type of each of these names, and a test that uses it. They are the names of the crate's private items, and
/// of the items that it has with the feature `more`.
macro_rules! not_taken {
    ($($name:ident)*) => {
        mod others {
            $(#[allow(non_camel_case_types)] pub struct $name;)*
        }

        #[test]
        fn no_name_is_taken() {
            // The first name is a type or a module, and the second one is a value.
            $(let _: $name = $name;)*
        }
    };
}

#[test]
fn no_feature_is_on_by_default() {
    assert!(!include_str!("../../Cargo.toml").lines().any(|line| line.starts_with("default")));
}

not_taken! {
    AllocError AllocFailed Buffer Bytes Cursor DecodeError Global IntoError LiteralError Sink Steps VarintError
    MAX_LITERAL_LEN RELEASE cursor huffman_text_len memory more proved put_huffman_encoded put_string unfit varint_fits
    verified writer
}

/// A type that no method of the crate takes.
struct Nothing;

/// Defines a method of each of these names, and a test that calls it with an argument that the crate's method of that
/// name wouldn't take.
macro_rules! no_methods {
    ($($name:ident)*) => {
        trait Own {
            $(fn $name(&mut self, _: Nothing) {})*
        }
        impl Own for octets::Octets<'_> {}
        impl Own for octets::OctetsMut<'_> {}

        #[test]
        fn no_method_is_taken() {
            let mut bytes = [0; 1];
            let mut one = octets::Octets::with_slice(&[]);
            $(one.$name(Nothing);)*
            let mut other = octets::OctetsMut::with_slice(&mut bytes);
            $(other.$name(Nothing);)*
        }
    };
}

no_methods! {
    get_huffman_decoded_into get_string get_string_into get_strings get_varint_shortest into_inner put_string
    try_get_huffman_decoded try_get_huffman_decoded_counted try_get_huffman_decoded_with_max_length try_to_vec verified
}
