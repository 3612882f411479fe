// The items of the crate `octets` 0.3.7, with their types. These lines only have to compile. A file that includes them
// brings the names of this crate, or of the original one, into scope; peers/upstream does so for both.
type Answer<T> = std::result::Result<T, BufferTooShortError>;

const _: [(); 8] = [(); varint_len(MAX_VAR_INT)];
const _: [(); 4] = [(); varint_parse_len(0x80)];
const _: [(); 1] = [(); (MAX_VAR_INT == (1 << 62) - 1) as usize];

fn shared<T: Send + Sync + Unpin>() {}
fn unwinds<T: std::panic::UnwindSafe + std::panic::RefUnwindSafe>() {}
fn ref_unwinds<T: std::panic::RefUnwindSafe>() {}
fn equal<T: PartialEq + Eq + std::fmt::Debug>() {}
fn error<T>()
where
    T: std::error::Error + std::fmt::Display + std::fmt::Debug + Copy + Clone + PartialEq + Eq + 'static,
{
}
fn shows<T: AsRef<[u8]>>() {}
fn lends<T: AsMut<[u8]>>() {}
fn writes<T: OctetsWriter<Error = BufferTooShortError>>() {}
fn is_object(_: &mut dyn OctetsWriter<Error = ()>) {}

/// Both cursors are covariant in their lifetime.
fn shorter<'s>(a: Octets<'static>, b: OctetsMut<'static>) -> (Octets<'s>, OctetsMut<'s>) {
    (a, b)
}

/// The views and slices that are read have the lifetime of the buffer, so they outlive the cursor.
fn outlives<'a>(bytes: &'a [u8]) -> Answer<([Octets<'a>; 5], [&'a [u8]; 3])> {
    let mut cursor = Octets::with_slice(bytes);
    let views = [
        cursor.get_bytes(0)?,
        cursor.get_bytes_with_u8_length()?,
        cursor.get_bytes_with_u16_length()?,
        cursor.get_bytes_with_varint_length()?,
        cursor.peek_bytes(0)?,
    ];
    Ok((views, [cursor.slice(0)?, cursor.slice_last(0)?, cursor.buf()]))
}

fn lent_for_good<'a>(cursor: &'a mut OctetsMut<'a>, last: bool) -> Answer<&'a mut [u8]> {
    if last {
        return cursor.slice_last(0);
    }
    cursor.slice(0)
}

/// Asserts that types don't implement traits. If a type implements one, both implementations of `Lacks` apply to it,
/// and the compiler can't infer which one is meant.
macro_rules! lack {
    ($($bound:path),*; $types:tt) => { $({
        trait Lacks<Which> {
            fn lacks() {}
        }
        struct Has;
        impl<T: ?Sized> Lacks<()> for T {}
        impl<T: ?Sized + $bound> Lacks<Has> for T {}
        lack!($types);
    })* };
    (($($type:ty),*)) => { $(let _ = <$type as Lacks<_>>::lacks;)* };
}

fn items<'a>() {
    shared::<Octets>();
    shared::<OctetsMut>();
    unwinds::<Octets>();
    ref_unwinds::<OctetsMut>();
    equal::<Octets>();
    equal::<OctetsMut>();
    error::<BufferTooShortError>();
    shows::<Octets>();
    shows::<OctetsMut>();
    lends::<OctetsMut>();
    writes::<OctetsMut>();
    let _ = is_object;
    let _: fn(Octets<'static>, OctetsMut<'static>) -> _ = shorter;
    let _: for<'c> fn(&'c [u8]) -> Answer<([Octets<'c>; 5], [&'c [u8]; 3])> = outlives;
    let _: for<'c> fn(&'c mut OctetsMut<'c>, bool) -> Answer<&'c mut [u8]> = lent_for_good;
    macro_rules! both { ($($name:ident $answer:ty $(, $arg:ty)*;)*) => { $(
        let _: for<'b> fn(&'b mut Octets<'a> $(, $arg)*) -> $answer = Octets::$name;
        let _: for<'b> fn(&'b mut OctetsMut<'a> $(, $arg)*) -> $answer = OctetsMut::$name;
    )* } }
    both! {
        get_u8 Answer<u8>; peek_u8 Answer<u8>; get_u16 Answer<u16>; get_u24 Answer<u32>;
        get_u32 Answer<u32>; get_u64 Answer<u64>; get_varint Answer<u64>;
        rewind Answer<()>, usize; skip Answer<()>, usize;
    }
    macro_rules! asked { ($($name:ident $answer:ty;)*) => { $(
        let _: for<'b> fn(&'b Octets<'a>) -> $answer = Octets::$name;
        let _: for<'b> fn(&'b OctetsMut<'a>) -> $answer = OctetsMut::$name;
    )* } }
    asked! { cap usize; len usize; is_empty bool; off usize; to_vec Vec<u8>; }
    macro_rules! views { ($($name:ident $(, $arg:ty)*;)*) => { $(
        let _: for<'b> fn(&'b mut Octets<'a> $(, $arg)*) -> Answer<Octets<'a>> = Octets::$name;
        let _: for<'b> fn(&'b mut OctetsMut<'a> $(, $arg)*) -> Answer<Octets<'b>> = OctetsMut::$name;
    )* } }
    views! {
        get_bytes, usize; get_bytes_with_u8_length; get_bytes_with_u16_length;
        get_bytes_with_varint_length;
    }
    let _: for<'b> fn(&'b Octets<'a>, usize) -> Answer<Octets<'a>> = Octets::peek_bytes;
    let _: for<'b> fn(&'b mut OctetsMut<'a>, usize) -> Answer<Octets<'b>> = OctetsMut::peek_bytes;
    let _: for<'b> fn(&'b Octets<'a>, usize) -> Answer<&'a [u8]> = Octets::slice;
    let _: for<'b> fn(&'b Octets<'a>, usize) -> Answer<&'a [u8]> = Octets::slice_last;
    let _: fn(&'a mut OctetsMut<'a>, usize) -> Answer<&'a mut [u8]> = OctetsMut::slice;
    let _: fn(&'a mut OctetsMut<'a>, usize) -> Answer<&'a mut [u8]> = OctetsMut::slice_last;
    let _: for<'b> fn(&'b Octets<'a>) -> &'a [u8] = Octets::buf;
    let _: for<'b> fn(&'b OctetsMut<'a>) -> &'b [u8] = OctetsMut::buf;
    macro_rules! puts { ($($name:ident $($arg:ty),*;)*) => { $(
        let _: for<'b> fn(&'b mut OctetsMut<'a>, $($arg),*) -> Answer<&'b mut [u8]> = OctetsMut::$name;
    )* } }
    puts! {
        put_u8 u8; put_u16 u16; put_u24 u32; put_u32 u32; put_u64 u64; put_varint u64;
        put_varint_with_len u64, usize;
    }
    let _: for<'b> fn(&'b mut OctetsMut<'a>, usize) -> Answer<OctetsMut<'b>> = OctetsMut::get_bytes_mut;
    let _: for<'b> fn(&'b mut OctetsMut<'a>, usize) -> Answer<OctetsMut<'b>> = OctetsMut::peek_bytes_mut;
    let _: for<'b> fn(&'b mut OctetsMut<'a>, usize) -> Answer<(OctetsMut<'b>, OctetsMut<'b>)> = OctetsMut::split_at;
    let _: for<'b> fn(&'b mut OctetsMut<'a>, &[u8]) -> Answer<()> = OctetsMut::put_bytes;
    let _: fn(&'a [u8]) -> Octets<'a> = Octets::with_slice;
    let _: fn(&'a mut [u8]) -> OctetsMut<'a> = OctetsMut::with_slice;
    let _: fn(u64) -> usize = varint_len;
    let _: fn(u8) -> usize = varint_parse_len;
    let _: Result<u8> = Ok(0);
    let BufferTooShortError = BufferTooShortError;
    lack!(std::hash::Hash, std::fmt::Display, Default, PartialOrd; (Octets, OctetsMut));
    lack!(Clone; (OctetsMut));
    #[cfg(not(feature = "more"))]
    lack!(Clone; (Octets));
    lack!(std::fmt::Write, std::io::Write, std::io::Read, IntoIterator, std::ops::Deref, std::borrow::Borrow<[u8]>; (Octets, OctetsMut));
    lack!(From<&'static [u8]>, PartialEq<[u8]>, std::ops::Index<usize>; (Octets, OctetsMut));
    lack!(AsMut<[u8]>, OctetsWriter; (Octets));
    lack!(std::hash::Hash, Default, PartialOrd; (BufferTooShortError));
    #[cfg(feature = "huffman_hpack")]
    texts();
}

#[cfg(feature = "huffman_hpack")]
fn texts<'a>() {
    let _: for<'b> fn(&'b mut OctetsMut<'a>, &[u8]) -> Answer<()> = OctetsMut::put_huffman_encoded::<true>;
    let _: for<'b> fn(&'b mut OctetsMut<'a>, &[u8]) -> Answer<()> =
        <OctetsMut as OctetsWriter>::put_huffman_encoded::<true>;
    let _: for<'b> fn(&'b mut Octets<'a>) -> Answer<Vec<u8>> = Octets::get_huffman_decoded;
    let _: for<'b> fn(&'b mut Octets<'a>, usize) -> Answer<Vec<u8>> = Octets::get_huffman_decoded_with_max_length;
    let _: fn(&[u8]) -> Answer<usize> = huffman_encoding_len::<false>;
}

/// Without the feature the crate has no function and no method of these names. If it had one, the name of the function
/// would be ambiguous, and the calls of the methods would call the crate's.
#[cfg(not(feature = "huffman_hpack"))]
mod featureless {
    use super::*;
    use others::*;

    mod others {
        pub fn huffman_encoding_len() {}
    }

    trait Reads {
        fn get_huffman_decoded(&mut self) {}
        fn get_huffman_decoded_with_max_length(&mut self) {}
    }
    impl Reads for Octets<'_> {}

    trait Writes {
        fn put_huffman_encoded(&mut self) {}
    }
    impl Writes for OctetsMut<'_> {}
    struct Nothing;
    impl OctetsWriter for Nothing {
        type Error = ();
        fn put_bytes(&mut self, _: &[u8]) -> std::result::Result<(), ()> {
            Ok(())
        }
    }
    impl Writes for Nothing {}

    #[allow(dead_code)]
    fn names(mut reader: Octets, mut writer: OctetsMut) {
        huffman_encoding_len();
        reader.get_huffman_decoded();
        reader.get_huffman_decoded_with_max_length();
        writer.put_huffman_encoded();
        Nothing.put_huffman_encoded();
    }
}

/// The examples of the documentation have lines for some features. A line for a feature that doesn't exist would never be run.
#[test]
fn each_feature_that_the_sources_name_exists() {
    fn names(folder: &std::path::Path, found: &mut Vec<String>) {
        for entry in std::fs::read_dir(folder).unwrap() {
            let path = entry.unwrap().path();
            if path.is_dir() {
                names(&path, found);
            } else {
                let text = std::fs::read_to_string(&path).unwrap();
                found
                    .extend(text.split("feature = \"").skip(1).map(|rest| rest.split('"').next().unwrap().to_string()));
            }
        }
    }
    let mut found = Vec::new();
    names(&std::path::Path::new(env!("CARGO_MANIFEST_DIR")).join("src"), &mut found);
    assert!(found.len() >= 10, "{}", found.len());
    for name in found {
        assert!(["huffman_hpack", "more"].contains(&&*name), "{name}");
    }
}
