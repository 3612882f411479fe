//! Writes a frame whose length is known only once its payload is written, and writes the length before it afterwards.
use octets::{BufferTooShortError, Octets, OctetsMut, Result, varint_len};

/// The width of the length, which is a varint. With two bytes, a payload has at most 16,383 bytes.
const LENGTH_BYTES: usize = 2;

/// Writes a length, and after it the words, each after its own length, which is one byte. It fails if a word has more than
/// 255 bytes, or if the payload has more than 16,383 bytes.
pub fn write_frame(cursor: &mut OctetsMut<'_>, words: &[&str]) -> Result<()> {
    cursor.skip(LENGTH_BYTES)?;
    let start = cursor.off();
    for word in words {
        let len = u8::try_from(word.len()).map_err(|_| BufferTooShortError)?;
        cursor.put_u8(len)?;
        cursor.put_bytes(word.as_bytes())?;
    }
    let payload = cursor.off() - start;
    // `put_varint_with_len` writes only the lowest 14 bits of a longer length.
    if varint_len(payload as u64) > LENGTH_BYTES {
        return Err(BufferTooShortError);
    }
    cursor.rewind(LENGTH_BYTES + payload)?;
    cursor.put_varint_with_len(payload as u64, LENGTH_BYTES)?;
    cursor.skip(payload)
}

fn main() -> Result<()> {
    let mut bytes = [0; 64];
    let mut cursor = OctetsMut::with_slice(&mut bytes);
    write_frame(&mut cursor, &["a", "frame", "of", "words"])?;
    let end = cursor.off();

    let mut frame = Octets::with_slice(&bytes[..end]).get_bytes_with_varint_length()?;
    print!("{} bytes:", frame.len());
    while frame.cap() > 0 {
        let word = frame.get_bytes_with_u8_length()?;
        print!(" {}", String::from_utf8_lossy(word.buf()));
    }
    println!();
    Ok(())
}
