//! Eight threads run at the same time. Each writes packets into its own buffer and reads them back, and all of them
//! read one shared value.
use octets::{Octets, OctetsMut};
use std::thread;

fn write_and_read(number: u64, value: &[u8]) -> octets::Result<()> {
    let mut packet = [0; 64];
    let mut writer = OctetsMut::with_slice(&mut packet);
    writer.put_u16(number as u16)?;
    writer.put_varint(number)?;
    writer.put_varint(value.len() as u64)?;
    writer.put_bytes(value)?;
    let end = writer.off();

    let mut reader = Octets::with_slice(&packet[..end]);
    assert_eq!(reader.get_u16()?, number as u16);
    assert_eq!(reader.get_varint()?, number);
    assert_eq!(reader.get_bytes_with_varint_length()?.buf(), value);
    assert_eq!(reader.cap(), 0);
    assert!(reader.get_u8().is_err());
    Ok(())
}

#[cfg(feature = "huffman_hpack")]
fn encode_and_decode(value: &[u8]) -> octets::Result<()> {
    let mut text = [0; 16];
    let mut writer = OctetsMut::with_slice(&mut text);
    writer.put_huffman_encoded::<true>(value)?;
    let end = writer.off();
    let decoded = Octets::with_slice(&text[..end]).get_huffman_decoded()?;
    assert_eq!(decoded, value.to_ascii_lowercase());
    Ok(())
}

#[test]
fn eight_threads() {
    let value = b"WWW.example.com";
    thread::scope(|threads| {
        for number in 1..=8_u64 {
            threads.spawn(move || {
                for round in 0..200 {
                    write_and_read(number << (round % 56), value).expect("it fits");
                    #[cfg(feature = "huffman_hpack")]
                    encode_and_decode(value).expect("it fits");
                }
            });
        }
    });
}
