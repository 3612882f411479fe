use octets::Octets;
use reports::{Records, read_header};

fn main() {
    let report = [0xc5, 0, 0, 1, 2, 7, 1, 0xaa, 8, 0];
    let mut cursor = Octets::with_slice(&report);
    let header = read_header(&mut cursor).expect("a header");
    println!("station {} sensor {:?}", header.station, header.sensor);
    for record in Records::of(cursor).flatten() {
        println!("kind {} with {} bytes", record.kind, record.value.len());
    }
}
