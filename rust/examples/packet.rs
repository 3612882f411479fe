//! Writes a packet and reads it. The packet has a kind of one byte, a number of two bytes, and a payload after its
//! length, which is a varint.
use octets::{Octets, OctetsMut, Result};

pub fn write_packet(packet: &mut [u8], kind: u8, number: u16, payload: &[u8]) -> Result<usize> {
    let mut cursor = OctetsMut::with_slice(packet);
    cursor.put_u8(kind)?;
    cursor.put_u16(number)?;
    cursor.put_varint(payload.len() as u64)?;
    cursor.put_bytes(payload)?;
    Ok(cursor.off())
}

pub fn read_packet(packet: &[u8]) -> Result<(u8, u16, &[u8])> {
    let mut cursor = Octets::with_slice(packet);
    let kind = cursor.get_u8()?;
    let number = cursor.get_u16()?;
    let payload = cursor.get_bytes_with_varint_length()?;
    Ok((kind, number, payload.buf()))
}

/// Returns two hexadecimal digits for each byte.
pub fn hex(bytes: &[u8]) -> String {
    bytes.iter().fold(String::new(), |text, byte| text + &format!("{byte:02x}"))
}

fn main() -> Result<()> {
    let mut packet = [0; 16];
    let len = write_packet(&mut packet, 7, 258, b"abc")?;
    assert_eq!(hex(&packet[..len]), "07010203616263");
    let (kind, number, payload) = read_packet(&packet[..len])?;
    println!("kind {kind} number {number} payload {}", hex(payload));
    Ok(())
}
