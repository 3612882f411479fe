//! Writes a packet and reads it. The packet has a kind of one byte, a number of two bytes, and a
//! payload after its length, which is a varint.
use octets::{Octets, OctetsMut};

fn put_packet(bytes: &mut [u8], kind: u8, number: u16, payload: &[u8]) -> octets::Result<usize> {
    let mut b = OctetsMut::with_slice(bytes);
    b.put_u8(kind)?;
    b.put_u16(number)?;
    b.put_varint(payload.len() as u64)?;
    b.put_bytes(payload)?;
    Ok(b.off())
}

fn main() -> octets::Result<()> {
    let mut bytes = [0; 16];
    let len = put_packet(&mut bytes, 7, 258, b"abc")?;
    let mut b = Octets::with_slice(&bytes[..len]);
    let (kind, number) = (b.get_u8()?, b.get_u16()?);
    print!("kind {kind} number {number} payload ");
    for byte in b.get_bytes_with_varint_length()?.as_ref() {
        print!("{byte:02x}");
    }
    println!();
    Ok(())
}
