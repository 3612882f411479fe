//! Writes the names and values of header fields as string literals of HPACK (RFC 7541, section 5.2), and reads them.
use octets::Octets;
use octets::more::{AllocError, LiteralError, put_string};

/// The longest name or value that a peer may send.
const LIMIT: usize = 4096;

/// A header field: its name and its value.
pub type Field = (Vec<u8>, Vec<u8>);

pub fn write_block(fields: &[(&str, &str)]) -> Result<Vec<u8>, AllocError> {
    let mut block = Vec::new();
    for (name, value) in fields {
        // `true` writes the name in lower case, as HTTP/2 requires.
        put_string::<true, _>(&mut block, name.as_bytes())?;
        put_string::<false, _>(&mut block, value.as_bytes())?;
    }
    Ok(block)
}

pub fn read_block(block: &[u8]) -> Result<Vec<Field>, LiteralError> {
    let mut cursor = Octets::with_slice(block);
    let mut fields = Vec::new();
    while cursor.cap() > 0 {
        fields.push((cursor.get_string(LIMIT)?, cursor.get_string(LIMIT)?));
    }
    Ok(fields)
}

fn main() -> Result<(), Box<dyn std::error::Error>> {
    let block = write_block(&[("Host", "www.example.com"), ("Cache-Control", "no-cache")])?;
    for (name, value) in read_block(&block)? {
        println!("{}: {}", String::from_utf8(name)?, String::from_utf8(value)?);
    }
    println!("{} bytes", block.len());
    Ok(())
}
