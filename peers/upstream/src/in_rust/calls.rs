// This file is included twice: where the names of one crate are in scope, and where those of the
// other are.

/// Decodes the bytes from a position on, and returns the value and the offset.
pub fn decode(text: &[u8], skip: usize, max: Option<usize>) -> (Option<Vec<u8>>, usize) {
    let mut cursor = Octets::with_slice(text);
    cursor.skip(skip).unwrap();
    let value = match max {
        Some(max) => cursor.get_huffman_decoded_with_max_length(max),
        None => cursor.get_huffman_decoded(),
    };
    (value.ok(), cursor.off())
}

/// A sink that records its pieces, and fails at the first one that doesn't fit.
struct Sink {
    pieces: Vec<Vec<u8>>,
    capacity: usize,
}

impl OctetsWriter for Sink {
    type Error = usize;

    fn put_bytes(&mut self, v: &[u8]) -> std::result::Result<(), usize> {
        self.pieces.push(v.to_vec());
        self.capacity = self.capacity.checked_sub(v.len()).ok_or(v.len())?;
        Ok(())
    }
}

type Pieces = (Vec<Vec<u8>>, std::result::Result<(), usize>);

pub fn encode_to_sink(v: &[u8], lower: bool, capacity: usize) -> Pieces {
    let mut sink = Sink { pieces: Vec::new(), capacity };
    let result = match lower {
        true => sink.put_huffman_encoded::<true>(v),
        false => sink.put_huffman_encoded::<false>(v),
    };
    (sink.pieces, result)
}

/// Encodes to a cursor, by the cursor's own call or by that of the trait.
pub fn encode(v: &[u8], lower: bool, as_sink: bool, buf: &mut [u8], off: usize) -> (bool, usize) {
    let mut cursor = OctetsMut::with_slice(buf);
    cursor.skip(off).unwrap();
    let result = match (lower, as_sink) {
        (false, false) => cursor.put_huffman_encoded::<false>(v),
        (true, false) => cursor.put_huffman_encoded::<true>(v),
        (false, true) => OctetsWriter::put_huffman_encoded::<false>(&mut cursor, v),
        (true, true) => OctetsWriter::put_huffman_encoded::<true>(&mut cursor, v),
    };
    (result.is_ok(), cursor.off())
}

pub fn length(v: &[u8]) -> (Option<usize>, Option<usize>) {
    (huffman_encoding_len::<false>(v).ok(), huffman_encoding_len::<true>(v).ok())
}

/// Returns the result of a call as text: bytes, with the numbers beside them.
fn shown(bytes: &[u8], numbers: &[usize]) -> String {
    format!("{bytes:02x?} {numbers:?}")
}

fn number(result: Result<impl std::fmt::Debug>) -> String {
    format!("{result:?}")
}

fn view(result: Result<Octets>) -> String {
    result.map_or("refused".into(), |v| shown(v.as_ref(), &[v.off(), v.len(), v.cap()]))
}

/// Returns as text the bytes that a call returned. If `change` isn't 0, it then replaces the last of these bytes by it.
fn lent(result: Result<&mut [u8]>, change: u8) -> String {
    let Ok(bytes) = result else {
        return "refused".into();
    };
    let before = shown(bytes, &[]);
    if let (Some(last), 1..) = (bytes.last_mut(), change) {
        *last = change;
    }
    before
}

/// Writes through a view, and reads it.
fn filled(view: &mut OctetsMut, a: u64, change: u8) -> String {
    let mut said = shown(view.as_ref(), &[view.len(), view.off()]);
    if change > 0 {
        said += &lent(view.put_u16(a as u16), change);
        said += &lent(view.put_varint(a >> (change & 31) & MAX_VAR_INT), 0);
    }
    said + &shown(view.buf(), &[view.off(), view.cap()])
}

/// The calls that both cursors have.
macro_rules! common {
    ($c:ident, $call:ident, $n:ident, $($rest:tt)*) => { match $call {
        0 => number($c.get_u8()),
        1 => number($c.get_u16()),
        2 => number($c.get_u24()),
        3 => number($c.get_u32()),
        4 => number($c.get_u64()),
        5 => number($c.peek_u8()),
        6 => number($c.get_varint()),
        7 => view($c.get_bytes($n)),
        8 => view($c.peek_bytes($n)),
        9 => view($c.get_bytes_with_u8_length()),
        10 => view($c.get_bytes_with_u16_length()),
        11 => view($c.get_bytes_with_varint_length()),
        12 => number($c.rewind($n)),
        13 => number($c.skip($n)),
        14 => shown($c.buf(), &[$c.cap(), $c.len(), $c.off(), $c.is_empty() as usize]),
        15 => shown($c.as_ref(), &[]),
        16 => shown(&$c.to_vec(), &[]),
        17 => format!("{:?} {:#?}", $c, $c),
        $($rest)*
    } }
}

/// Makes one call of a cursor for reading at an offset, and returns its result and the offset after
/// it.
pub fn read(buf: &[u8], off: usize, call: usize, n: usize) -> (String, usize) {
    let mut cursor = Octets::with_slice(buf);
    cursor.skip(off).unwrap();
    let said = common!(cursor, call, n,
        18 => number(cursor.slice(n)),
        19 => number(cursor.slice_last(n)),
        20 => shown(&[], &[(cursor == Octets::with_slice(buf)) as usize]),
        _ => shown(&[], &[varint_parse_len(n as u8), varint_len(n as u64 & MAX_VAR_INT)]));
    (said, cursor.off())
}

/// Does the same for a cursor for writing.
pub fn write(buf: &mut [u8], off: usize, call: usize, a: u64, change: u8, bytes: &[u8]) -> (String, usize) {
    let (n, v) = (a as usize, a.wrapping_mul(0x9e37_79b9_7f4a_7c15) >> (change & 63));
    let mut cursor = OctetsMut::with_slice(buf);
    cursor.skip(off).unwrap();
    let said = common!(cursor, call, n,
        18 => return (lent(cursor.slice(n), change), off),
        19 => return (lent(cursor.slice_last(n), change), off),
        20 => lent(cursor.put_u8(v as u8), change),
        21 => lent(cursor.put_u16(v as u16), change),
        22 => lent(cursor.put_u24(v as u32), change),
        23 => lent(cursor.put_u32(v as u32), change),
        24 => lent(cursor.put_u64(v), change),
        25 => lent(cursor.put_varint(v & MAX_VAR_INT), change),
        26 | 27 => lent(cursor.put_varint_with_len(v, 1 << (n & 3)), change),
        28 => number(cursor.put_bytes(bytes)),
        29 => number(OctetsWriter::put_bytes(&mut cursor, bytes)),
        30 => number(cursor.put_huffman_encoded::<false>(bytes)),
        31 => number(cursor.put_huffman_encoded::<true>(bytes)),
        32 => cursor.get_bytes_mut(n).map_or("refused".into(), |mut v| filled(&mut v, a, change)),
        33 => cursor.peek_bytes_mut(n).map_or("refused".into(), |mut v| filled(&mut v, a, change)),
        34 => halves(&mut cursor, n, a, change),
        35 => lent(Ok(cursor.as_mut()), change),
        _ => lent(cursor.put_varint_with_len(v & MAX_VAR_INT, 8), change));
    (said, cursor.off())
}

fn halves(cursor: &mut OctetsMut, n: usize, a: u64, change: u8) -> String {
    let Ok((mut front, mut back)) = cursor.split_at(n) else {
        return "refused".into();
    };
    let said = filled(&mut front, a, change) + &filled(&mut back, a, change);
    said + if front == back { "equal" } else { "" }
}

/// Makes a call that may panic.
pub fn panicking(call: usize, v: u64, len: usize, capacity: usize) -> String {
    let mut bytes = vec![0; capacity];
    let mut cursor = OctetsMut::with_slice(&mut bytes);
    match call {
        0 => shown(&[], &[varint_len(v)]),
        1 => lent(cursor.put_varint(v), 0),
        _ => lent(cursor.put_varint_with_len(v, len), 0),
    }
}
