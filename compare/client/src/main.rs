//! The original's client over the original's packets, and the same client over cablefinch-bytes, at the two ends of
//! one connection that runs through a relay on loopback. Packets go both ways; a relay that damages a byte makes
//! both ends refuse alike. Then both decoders are given the same bytes.

use bytes::{Bytes, BytesMut};
use std::sync::Arc;
use std::sync::atomic::{AtomicI64, Ordering};
use std::time::Duration;
use tokio::io::{AsyncReadExt, AsyncWriteExt};
use tokio::net::tcp::{OwnedReadHalf, OwnedWriteHalf};
use tokio::net::{TcpListener, TcpStream};

/// A packet of neither client.
#[derive(Debug, Clone, PartialEq)]
struct Plain {
    kind: u16,
    flags: u16,
    id: [u8; 16],
    parts: Vec<Option<Bytes>>,
}

/// What the two clients have under the same names.
macro_rules! client {
    ($name:ident, $krate:ident) => {
        mod $name {
            use super::*;
            use $krate::bus::Bus;
            use $krate::bus::packet::{self, Packet, PacketFlags, PacketType};
            use $krate::error::Error;
            use $krate::guid::Guid;

            pub fn made(plain: &Plain) -> Packet {
                Packet {
                    packet_type: match plain.kind {
                        0 => PacketType::Message,
                        1 => PacketType::Ack,
                        _ => PacketType::SslAck,
                    },
                    flags: PacketFlags(plain.flags),
                    id: Guid(plain.id),
                    parts: plain.parts.clone(),
                }
            }

            pub fn plain(packet: Packet) -> Plain {
                Plain {
                    kind: packet.packet_type as u16,
                    flags: packet.flags.0,
                    id: packet.id.0,
                    parts: packet.parts,
                }
            }

            pub async fn connect(address: &str, limit: u64) -> Bus {
                let bus = Bus::connect_with(address, limit, Duration::from_secs(20)).await;
                bus.expect("a handshake")
            }

            /// What is received, or the error as both clients print it.
            pub async fn receive(bus: &mut Bus) -> Result<Plain, String> {
                match bus.reader.receive().await {
                    Ok(packet) => Ok(plain(packet)),
                    Err(Error::Packet(error)) => Err(format!("{error:?}")),
                    Err(Error::Io(error)) => Err(format!("{:?}", error.kind())),
                    Err(error) => Err(format!("another error: {error}")),
                }
            }

            pub async fn send(bus: &mut Bus, packet: &Plain) {
                bus.writer
                    .send(&made(packet))
                    .await
                    .expect("a packet that is sent");
            }

            /// The answer of `decode_with`, and what it left of the input.
            pub fn decoded(input: &[u8], limit: u64, ceiling: u32) -> (String, BytesMut) {
                let mut input = BytesMut::from(input);
                let answer = packet::decode_with(&mut input, limit, ceiling);
                (format!("{:?}", answer.map(|packet| packet.map(plain))), input)
            }

            pub fn encoded(packet: &Plain) -> BytesMut {
                let mut out = BytesMut::from(&b"before"[..]);
                let packet = made(packet);
                packet::encode(&packet, &mut out).expect("a packet that is written");
                assert!(packet::validate(&packet).is_ok());
                assert_eq!(packet::encoded_size(&packet), out.len() - b"before".len());
                out
            }
        }
    };
}

client!(original_client, original);
client!(over_client, over);

/// Hands bytes on; the byte at which `damage` has counted down to 0 is changed.
async fn hand_on(mut from: OwnedReadHalf, mut to: OwnedWriteHalf, damage: Arc<AtomicI64>) {
    let mut chunk = vec![0; 1 << 16];
    while let Ok(read @ 1..) = from.read(&mut chunk).await {
        let at = damage.load(Ordering::SeqCst);
        if at >= 0 {
            if let Some(byte) = chunk[..read].get_mut(at as usize) {
                *byte ^= 0x40;
            }
            damage.store(if at < read as i64 { -1 } else { at - read as i64 }, Ordering::SeqCst);
        }
        if to.write_all(&chunk[..read]).await.is_err() {
            break;
        }
    }
    let _ = to.shutdown().await;
}

/// Both clients, connected to each other.
struct Pair {
    original: original::bus::Bus,
    over: over::bus::Bus,
    /// Which byte to damage, counted from the next: to the original, and to the other.
    to_original: Arc<AtomicI64>,
    to_over: Arc<AtomicI64>,
}

async fn pair(limit: u64) -> Pair {
    let listener = TcpListener::bind("127.0.0.1:0").await.expect("loopback");
    let address = listener.local_addr().expect("an address").to_string();
    let (to_original, to_over) = (Arc::new(AtomicI64::new(-1)), Arc::new(AtomicI64::new(-1)));
    let damages = (to_original.clone(), to_over.clone());
    tokio::spawn(async move {
        let mut ends: Vec<TcpStream> = Vec::new();
        for _ in 0..2 {
            ends.push(listener.accept().await.expect("a connection").0);
        }
        let (second, first) = (ends.pop().expect("two"), ends.pop().expect("two"));
        let ((first_read, first_write), (second_read, second_write)) = (first.into_split(), second.into_split());
        tokio::spawn(hand_on(first_read, second_write, damages.1));
        tokio::spawn(hand_on(second_read, first_write, damages.0));
    });
    // The original connects first, and waits in its handshake for the other.
    let first = tokio::spawn({
        let address = address.clone();
        async move { original_client::connect(&address, limit).await }
    });
    tokio::time::sleep(Duration::from_millis(20)).await;
    let over = over_client::connect(&address, limit).await;
    let original = first.await.expect("the original's client");
    Pair {
        original,
        over,
        to_original,
        to_over,
    }
}

/// Numbers that are the same in each run.
struct Draw(u64);

impl Draw {
    fn word(&mut self) -> u64 {
        self.0 = self.0.wrapping_add(0x9e37_79b9_7f4a_7c15);
        let mixed = (self.0 ^ (self.0 >> 30)).wrapping_mul(0xbf58_476d_1ce4_e5b9);
        let mixed = (mixed ^ (mixed >> 27)).wrapping_mul(0x94d0_49bb_1331_11eb);
        mixed ^ (mixed >> 31)
    }

    fn below(&mut self, bound: u64) -> u64 {
        self.word() % bound
    }

    fn bytes(&mut self, count: usize) -> Bytes {
        (0..count).map(|_| self.word() as u8).collect::<Vec<u8>>().into()
    }

    fn packet(&mut self, most: u64, longest: u64) -> Plain {
        let parts = (0..self.below(most + 1)).map(|_| match self.below(4) {
            0 => None,
            1 => Some(Bytes::new()),
            _ => {
                let count = self.below(longest) as usize;
                Some(self.bytes(count))
            }
        });
        let parts = parts.collect();
        Plain {
            kind: self.below(3) as u16,
            flags: self.word() as u16,
            id: std::array::from_fn(|_| self.word() as u8),
            parts,
        }
    }
}

fn message(parts: Vec<Option<Bytes>>) -> Plain {
    Plain {
        kind: 0,
        flags: 1,
        id: *b"sixteen bytes id",
        parts,
    }
}

/// Each packet from one end to the other, and back.
async fn exchange(pair: &mut Pair, packet: &Plain) {
    let (sent, heard) = tokio::join!(
        original_client::send(&mut pair.original, packet),
        over_client::receive(&mut pair.over)
    );
    assert_eq!((sent, heard.as_ref()), ((), Ok(packet)));
    let (sent, heard) = tokio::join!(
        over_client::send(&mut pair.over, packet),
        original_client::receive(&mut pair.original)
    );
    assert_eq!((sent, heard.as_ref()), ((), Ok(packet)));
}

#[tokio::main(flavor = "current_thread")]
async fn main() {
    let limit = 1 << 28;
    let mut draw = Draw(14);
    let mut together = pair(limit).await;
    let mut exchanged = 0;
    for packet in [
        message(vec![]),
        message(vec![None]),
        message(vec![Some(Bytes::new())]),
        message(vec![
            None,
            Some(Bytes::new()),
            Some(draw.bytes(1)),
            None,
            Some(draw.bytes(100)),
        ]),
        Plain {
            kind: 1,
            ..message(vec![])
        },
        Plain {
            kind: 2,
            ..message(vec![Some(draw.bytes(7)), None])
        },
        message(vec![Some(draw.bytes(32 << 20)), None, Some(draw.bytes(3 << 20))]),
        message(vec![None; 65_536]),
        message((0..20_000).map(|index| Some(draw.bytes(index % 50))).collect()),
    ] {
        exchange(&mut together, &packet).await;
        exchanged += 2;
    }
    for _ in 0..500 {
        let packet = draw.packet(12, 3000);
        exchange(&mut together, &packet).await;
        exchanged += 2;
    }
    println!("exchanged {exchanged} packets between the two clients, all alike");

    // One byte damaged: in the signature, the type, the flags, a size, a part's checksum, parts.
    let packet = message(vec![
        Some(draw.bytes(40)),
        None,
        Some(draw.bytes(40)),
        Some(draw.bytes(40)),
    ]);
    let headers = 36 + 12 * 4 + 8;
    let mut refusals = Vec::new();
    for at in [
        0,
        5,
        7,
        20,
        30,
        36,
        55,
        headers - 1,
        headers,
        headers + 45,
        headers + 119,
    ] {
        let mut pair = pair(limit).await;
        pair.to_over.store(at as i64, Ordering::SeqCst);
        let (_, over) = tokio::join!(
            original_client::send(&mut pair.original, &packet),
            over_client::receive(&mut pair.over)
        );
        pair.to_original.store(at as i64, Ordering::SeqCst);
        let (_, original) = tokio::join!(
            over_client::send(&mut pair.over, &packet),
            original_client::receive(&mut pair.original)
        );
        assert_eq!(over, original, "byte {at}");
        refusals.push(original.expect_err("a damaged packet is refused"));
    }
    // Longer than the connection takes, and one that ends too early.
    let mut small = pair(1000).await;
    let large = message(vec![Some(draw.bytes(2000))]);
    let (_, over) = tokio::join!(
        original_client::send(&mut small.original, &large),
        over_client::receive(&mut small.over)
    );
    let (_, original) = tokio::join!(
        over_client::send(&mut small.over, &large),
        original_client::receive(&mut small.original)
    );
    assert_eq!(over, original);
    refusals.push(original.expect_err("too large"));
    together.original.writer.shutdown().await.expect("a shutdown");
    let over = over_client::receive(&mut together.over).await;
    together.over.writer.shutdown().await.expect("a shutdown");
    let original = original_client::receive(&mut together.original).await;
    assert_eq!(over, original);
    refusals.push(original.expect_err("an end"));
    for refusal in &refusals {
        println!("refused alike by both: {refusal}");
    }

    // The same bytes to both decoders: whole, cut, damaged, under limits; what is left of them is compared too.
    let cases = 200_000;
    for _ in 0..cases {
        let sent = draw.packet(6, 40);
        let written = original_client::encoded(&sent);
        assert_eq!(written, over_client::encoded(&sent));
        let mut input = written[b"before".len()..].to_vec();
        let tail = draw.below(60) as usize;
        input.extend(draw.bytes(tail));
        if draw.below(3) == 0 {
            input[28..36].fill(0);
        }
        for _ in 0..draw.below(4) {
            let at = draw.below(input.len() as u64) as usize;
            input[at] = draw.word() as u8;
        }
        input.truncate(draw.below(2 * input.len() as u64 + 1) as usize);
        let limit = if draw.below(4) == 0 { draw.below(300) } else { 1 << 20 };
        let ceiling = if draw.below(4) == 0 {
            draw.below(7) as u32
        } else {
            u32::MAX
        };
        let original = original_client::decoded(&input, limit, ceiling);
        assert_eq!(original, over_client::decoded(&input, limit, ceiling), "{input:02x?}");
    }
    println!("decoded {cases} inputs by both, all alike");
}
