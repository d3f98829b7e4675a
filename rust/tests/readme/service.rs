use cablefinch::packet::{Decoder, Packet};
use cablefinch::wire::{self, Value, WireError};
use std::error::Error;
use std::io::Read;

/// Reads packets off a connection until the peer ends it. After an error the connection is closed:
/// no byte behind a refused packet is known to begin another.
pub fn serve(
    mut connection: impl Read,
    mut received: impl FnMut(&Packet<'_>) -> Result<(), Box<dyn Error>>,
) -> Result<(), Box<dyn Error>> {
    const LIMIT: u64 = 1 << 26; // the most bytes of a packet that this service takes
    let mut decoder = Decoder::live(); // a live peer's; `Decoder::archive()` reads what was stored
    let mut buffer = Vec::new();
    let mut chunk = vec![0; 1 << 16];
    loop {
        let mut done = 0; // the bytes of the packets that were received
        while let Some(decoded) = decoder.decode(&buffer[done..], LIMIT)? {
            received(&decoded.packet)?;
            done += decoded.consumed;
        }
        buffer.drain(..done); // once, for all of them
        match connection.read(&mut chunk)? {
            0 if buffer.is_empty() => return Ok(()),
            0 => return Err("the connection ended inside a packet".into()),
            read => buffer.extend_from_slice(&chunk[..read]),
        }
    }
}

/// The first string of each row of a part that is known to be a rowset, as it is where the answer to
/// a lookup is expected. A key without a row has its entry too, `None`, in its place.
pub fn terms(part: &[u8]) -> Result<Vec<Option<String>>, WireError> {
    let rowset = wire::decode_rowset(part)?;
    let term = |row: wire::Row<'_, '_>| match row.get(0).map(|value| value.value) {
        Some(Value::String(bytes)) => String::from_utf8_lossy(bytes).into_owned(),
        _ => String::new(),
    };
    Ok(rowset.rows().map(|row| row.map(term)).collect())
}
