//! Times the Rust at the pinned commit, the port and the Rust crate over it, in one process: the
//! thread's CPU time, the median of nine rounds, each round a batch of calls. What a call consumes is
//! made before the clock starts, and what it returns is dropped after it stops. Buffers that the port
//! writes to are not cleared between calls, the Rust's output buffer is emptied and used again, the
//! crate's decoders keep their tables, and caches are warm.

#[path = "../../compare/driver/src/face.rs"]
#[allow(dead_code)]
mod face;

use bytes::{Bytes, BytesMut};
use cablefinch::{packet as packets_of_crate, wire as rowsets_of_crate};
use cablefinch_bytes::bus::packet as packets_over_bytes;
use oracle::bus::packet::{self, Packet, PacketFlags, PacketType};
use oracle::guid::Guid;
use oracle::wire::{self, MaybeRow, UnversionedValue, Value};
use std::cell::LazyCell;
use std::ffi::{c_char, c_void};
use std::hint::black_box;
use std::io::Write;

const ROUNDS: usize = 9;
/// The words of an entry in a table: of a value, a YSON item, an error and an error's attribute.
const VALUE: usize = 5;
const ITEM: usize = 4;
const ERROR: usize = 4;
const ATTRIBUTE: usize = 5;
const LIMIT: u64 = 1 << 40;
/// The mode in which the port does what the Rust does.
const ARCHIVE: u64 = 0;
/// The words of a part in a table.
const PART: usize = 3;

#[repr(C)]
struct Time {
    seconds: i64,
    nanoseconds: i64,
}

unsafe extern "C" {
    fn clock_gettime(clock: i32, time: *mut Time) -> i32;
    fn dlopen(name: *const c_char, mode: i32) -> *mut c_void;
    fn dlsym(library: *mut c_void, name: *const c_char) -> *mut c_void;
}

type Isal = unsafe extern "C" fn(u64, *const u8, u64) -> u64;

/// ISA-L's CRC-64 of another polynomial, where its library is at hand: for scale.
fn isal() -> Option<Isal> {
    let name = std::env::var("CABLEFINCH_ISAL").unwrap_or("libisal.so.2".to_string());
    let name = std::ffi::CString::new(name).ok()?;
    // SAFETY: both names end in a zero byte; the function has this signature in ISA-L's crc64.h.
    unsafe {
        let library = dlopen(name.as_ptr(), 2);
        if library.is_null() {
            return None;
        }
        let function = dlsym(library, c"crc64_ecma_norm".as_ptr());
        if function.is_null() {
            return None;
        }
        Some(std::mem::transmute::<*mut c_void, Isal>(function))
    }
}

/// The thread's CPU time in nanoseconds.
fn clock() -> u64 {
    const THREAD: i32 = 3;
    let mut time = Time {
        seconds: 0,
        nanoseconds: 0,
    };
    // SAFETY: the struct is the C library's timespec on 64-bit Linux.
    let status = unsafe { clock_gettime(THREAD, &mut time) };
    assert!(status == 0);
    time.seconds as u64 * 1_000_000_000 + time.nanoseconds as u64
}

/// Nanoseconds a call: the median of nine batches.
fn time<I, O>(batch: usize, mut make: impl FnMut() -> I, mut call: impl FnMut(I) -> O) -> f64 {
    let mut times: Vec<f64> = (0..ROUNDS + 1)
        .map(|_| {
            let inputs: Vec<I> = (0..batch).map(|_| make()).collect();
            let mut outputs = Vec::with_capacity(batch);
            let start = clock();
            for input in inputs {
                outputs.push(black_box(call(black_box(input))));
            }
            (clock() - start) as f64 / batch as f64
        })
        .skip(1)
        .collect();
    times.sort_by(f64::total_cmp);
    times[ROUNDS / 2]
}

/// The times of one line: of the Rust, of the port, and of the crate over the port.
struct Times {
    rust: f64,
    port: f64,
    wrapped: f64,
}

struct Table {
    wanted: Vec<String>,
    missed: usize,
}

impl Table {
    /// Measures and prints a line, and answers how many bytes the port takes in a microsecond, which is
    /// MB/s; not a number where the line is not wanted.
    fn line(
        &mut self,
        name: &str,
        size: usize,
        bar: Option<f64>,
        measure: impl FnOnce() -> Times,
    ) -> f64 {
        if !self.wanted.is_empty() && !self.wanted.iter().any(|word| name.contains(word.as_str())) {
            return f64::NAN;
        }
        let Times {
            rust,
            port,
            wrapped,
        } = measure();
        let ratio = rust / port;
        let verdict = match bar {
            None => "recorded".to_string(),
            Some(bar) if ratio >= bar => format!("{bar:.2} met"),
            Some(bar) => {
                self.missed += 1;
                format!("{bar:.2} MISSED")
            }
        };
        println!(
            "| {name} | {size} | {} | {} | {} | {verdict} | {} | {} |",
            scaled(rust),
            scaled(port),
            shown(ratio),
            scaled(wrapped),
            shown(rust / wrapped)
        );
        1e3 * size as f64 / port
    }
}

/// A ratio, or `-` where one side has no such call.
fn shown(ratio: f64) -> String {
    match ratio.is_nan() {
        true => "-".to_string(),
        false => format!("{ratio:.2}"),
    }
}

fn scaled(nanoseconds: f64) -> String {
    if nanoseconds.is_nan() {
        return "-".to_string();
    }
    if nanoseconds < 10_000.0 {
        format!("{nanoseconds:.1} ns")
    } else if nanoseconds < 10_000_000.0 {
        format!("{:.1} us", nanoseconds / 1e3)
    } else {
        format!("{:.2} ms", nanoseconds / 1e6)
    }
}

/// Bytes that are no pattern.
fn noise(length: usize) -> Vec<u8> {
    let mut state = 0x9e37_79b9_7f4a_7c15u64;
    (0..length)
        .map(|_| {
            state ^= state << 13;
            state ^= state >> 7;
            state ^= state << 17;
            state as u8
        })
        .collect()
}

fn id() -> Guid {
    Guid::from_parts([0x1234_5678, 0x9a_bcde, 0xf012_3456, 0x789a_bcde])
}

fn checksums(table: &mut Table) {
    for (name, size, batch, bar) in [
        ("checksum 28 B", 28, 20_000, Some(1.5)),
        ("checksum 1 KiB", 1024, 1_000, Some(8.0)),
        ("checksum 64 KiB", 65_536, 20, Some(18.0)),
        ("checksum 64 MiB", 1 << 26, 1, Some(18.0)),
    ] {
        table.line(name, size, bar, || {
            let bytes = noise(size);
            assert!(oracle::crc64::checksum(&bytes) == face::checksum(&bytes));
            Times {
                rust: time(batch, || (), |()| oracle::crc64::checksum(&bytes)),
                port: time(batch, || (), |()| face::checksum(&bytes)),
                wrapped: time(batch, || (), |()| cablefinch::checksum(&bytes)),
            }
        });
    }
    // The Rust has no such operation: its checksum of 4 KiB stands beside it.
    let bytes = noise(4096);
    for (name, length) in [
        ("combine over 64 KiB, beside a checksum of 4 KiB", 1 << 16),
        (
            "combine over 2^64 - 1 bytes, beside a checksum of 4 KiB",
            u64::MAX,
        ),
    ] {
        table.line(name, 0, Some(1.0), || Times {
            rust: time(1_000, || (), |()| oracle::crc64::checksum(&bytes)),
            port: time(
                1_000,
                || (),
                |()| face::combine(black_box(1), 2, black_box(length)),
            ),
            wrapped: time(
                1_000,
                || (),
                |()| cablefinch::crc64::combine(black_box(1), 2, black_box(length)),
            ),
        });
    }
}

/// A packet, its bytes, the table of its parts over an area that holds them one after another.
struct Sample {
    packet: Packet,
    wire: Vec<u8>,
    area: Vec<u8>,
    parts: Vec<u64>,
}

fn sample(kind: PacketType, count: usize, size: usize, summed: bool) -> Sample {
    let area = noise(count * size);
    let whole = Bytes::from(area.clone());
    let packet = Packet {
        packet_type: kind,
        flags: PacketFlags(0),
        id: id(),
        parts: (0..count)
            .map(|i| Some(whole.slice(i * size..(i + 1) * size)))
            .collect(),
    };
    let mut out = BytesMut::new();
    packet::encode(&packet, &mut out).unwrap();
    let mut wire = out.to_vec();
    if !summed {
        wire[28..36].fill(0);
        if count > 0 {
            wire[36 + 4 * count..44 + 12 * count].fill(0);
        }
    }
    let parts = (0..count)
        .flat_map(|i| [(i * size) as u64, size as u64, 0])
        .collect();
    Sample {
        packet,
        wire,
        area,
        parts,
    }
}

fn packets(table: &mut Table) {
    let ack = || sample(PacketType::Ack, 0, 0, true);
    let small = || sample(PacketType::Message, 3, 100, true);
    let large = || sample(PacketType::Message, 1_000, 1_024, true);
    let huge = || sample(PacketType::Message, 1, 1 << 26, true);
    let bare = || sample(PacketType::Message, 1_000, 1_024, false);
    stream(table);
    decoded(table, "Ack decoded", 2_000, Some(1.2), ack);
    encoded(table, "Ack encoded", 2_000, Some(1.2), ack);
    decoded(table, "3 parts of 100 B decoded", 1_000, Some(3.0), small);
    encoded(table, "3 parts of 100 B encoded", 1_000, Some(3.0), small);
    decoded(table, "1,000 parts of 1 KiB decoded", 4, Some(7.0), large);
    encoded(table, "1,000 parts of 1 KiB encoded", 4, Some(7.0), large);
    encoded(table, "one part of 64 MiB encoded", 1, Some(3.0), huge);
    told(table, "1,000 parts of 1 KiB, why", 4, large);
    decoded(
        table,
        "1,000 parts of 1 KiB without checksums decoded",
        40,
        Some(1.0),
        bare,
    );
}

/// What is told of a packet that has nothing wrong, which the Rust has not: all its checks are made.
fn told(table: &mut Table, name: &str, batch: usize, make: impl Fn() -> Sample) {
    let wire = make().wire;
    let mode = cablefinch::packet::Mode::Archive;
    let wrapped = || cablefinch::why::packet(mode, &wire, LIMIT, u32::MAX);
    table.line(name, wire.len(), None, || {
        assert!(wrapped() == cablefinch::why::Why::Fine);
        Times {
            rust: f64::NAN,
            port: time(
                batch,
                || (),
                |()| face::why_packet(ARCHIVE, &wire, LIMIT, u32::MAX),
            ),
            wrapped: time(batch, || (), |()| wrapped()),
        }
    });
}

/// Acks that lie one behind another in one buffer, each taken off its front: what a service does. All
/// that a side makes is made and dropped within the clock, but for the buffer.
fn stream(table: &mut Table) {
    const COUNT: usize = 10_000;
    let one = sample(PacketType::Ack, 0, 0, true).wire;
    let wire = one.repeat(COUNT);
    let each = |nanoseconds: f64| nanoseconds / COUNT as f64;
    let through_slices = |mut next: Box<dyn FnMut(&[u8]) -> usize + '_>| {
        let mut done = 0;
        let mut count = 0;
        while done < wire.len() {
            done += next(&wire[done..]);
            count += 1;
        }
        assert!(count == COUNT);
    };
    table.line("an Ack in a stream of 10,000", one.len(), None, || {
        let rust = |mut input: BytesMut| {
            let mut count = 0;
            while let Some(packet) = packet::decode(&mut input, LIMIT).unwrap() {
                drop(black_box(packet));
                count += 1;
            }
            assert!(count == COUNT);
            input
        };
        let port = || {
            through_slices(Box::new(|rest| {
                let outcome = black_box(face::decode(ARCHIVE, rest, LIMIT, &mut []));
                outcome.count as usize
            }))
        };
        let mut decoder = packets_of_crate::Decoder::archive();
        let mut wrapped = || {
            through_slices(Box::new(|rest| {
                let decoded = black_box(decoder.decode(rest, LIMIT).unwrap().unwrap());
                decoded.consumed
            }))
        };
        Times {
            rust: each(time(4, || BytesMut::from(&wire[..]), rust)),
            port: each(time(4, || (), |()| port())),
            wrapped: each(time(4, || (), |()| wrapped())),
        }
    });
    let name = "an Ack in a stream of 10,000, the crate over BytesMut";
    table.line(name, one.len(), None, || {
        let rust = |mut input: BytesMut| {
            while let Some(packet) = packet::decode(&mut input, LIMIT).unwrap() {
                drop(black_box(packet));
            }
            input
        };
        let wrapped = |mut input: BytesMut| {
            while let Some(packet) = packets_over_bytes::decode(&mut input, LIMIT).unwrap() {
                drop(black_box(packet));
            }
            input
        };
        Times {
            rust: each(time(4, || BytesMut::from(&wire[..]), rust)),
            port: f64::NAN,
            wrapped: each(time(4, || BytesMut::from(&wire[..]), wrapped)),
        }
    });
    for (name, count, size, batch) in [
        (
            "3 parts of 100 B decoded, the crate over BytesMut",
            3,
            100,
            1_000,
        ),
        (
            "1,000 parts of 1 KiB decoded, the crate over BytesMut",
            1_000,
            1_024,
            4,
        ),
    ] {
        let sample = sample(PacketType::Message, count, size, true);
        let input = || BytesMut::from(&sample.wire[..]);
        table.line(name, sample.wire.len(), None, || Times {
            rust: time(batch, input, |mut input| {
                drop(black_box(packet::decode(&mut input, LIMIT).unwrap()));
                input
            }),
            port: f64::NAN,
            wrapped: time(batch, input, |mut input| {
                drop(black_box(
                    packets_over_bytes::decode(&mut input, LIMIT).unwrap(),
                ));
                input
            }),
        });
    }
}

fn decoded(
    table: &mut Table,
    name: &str,
    batch: usize,
    bar: Option<f64>,
    make: impl Fn() -> Sample,
) {
    let sample = make();
    table.line(name, sample.wire.len(), bar, || {
        let mut parts = vec![0u64; PART * sample.packet.parts.len()];
        let outcome = face::decode(ARCHIVE, &sample.wire, LIMIT, &mut parts);
        assert!(outcome.kind == face::ACCEPTED && outcome.count as usize == sample.wire.len());
        let mut decoder = packets_of_crate::Decoder::archive();
        let mut wrapped = || {
            decoder
                .decode(&sample.wire, LIMIT)
                .unwrap()
                .unwrap()
                .packet
                .parts
                .len()
        };
        assert!(wrapped() == sample.packet.parts.len());
        Times {
            rust: time(
                batch,
                || BytesMut::from(&sample.wire[..]),
                |mut input| (packet::decode(&mut input, LIMIT).unwrap(), input),
            ),
            port: time(
                batch,
                || (),
                |()| face::decode(ARCHIVE, &sample.wire, LIMIT, &mut parts),
            ),
            wrapped: time(batch, || (), |()| wrapped()),
        }
    });
}

fn encoded(
    table: &mut Table,
    name: &str,
    batch: usize,
    bar: Option<f64>,
    make: impl Fn() -> Sample,
) {
    let sample = make();
    table.line(name, sample.wire.len(), bar, || {
        let kind = sample.packet.packet_type as u64;
        let mut out = vec![0u8; sample.wire.len()];
        let mut buffer = BytesMut::with_capacity(sample.wire.len());
        let id = sample.packet.id.0;
        let outcome = face::encode(ARCHIVE, kind, 0, &id, &sample.area, &sample.parts, &mut out);
        assert!(outcome.kind == face::ACCEPTED && out == sample.wire);
        let parts: Vec<_> = sample
            .packet
            .parts
            .iter()
            .map(|part| part.as_deref())
            .collect();
        let packet = packets_of_crate::Packet {
            packet_type: match sample.packet.packet_type {
                PacketType::Message => packets_of_crate::PacketType::Message,
                PacketType::Ack => packets_of_crate::PacketType::Ack,
                PacketType::SslAck => packets_of_crate::PacketType::SslAck,
            },
            flags: packets_of_crate::PacketFlags::NONE,
            id: cablefinch::Guid(id),
            parts: parts.into(),
        };
        let mut encoder = packets_of_crate::Encoder::archive();
        let mut wrapped = || encoder.encode(black_box(&packet)).unwrap().len();
        assert!(wrapped() == sample.wire.len());
        Times {
            rust: time(
                batch,
                || (),
                |()| {
                    buffer.clear();
                    packet::encode(black_box(&sample.packet), &mut buffer).unwrap();
                },
            ),
            port: time(
                batch,
                || (),
                |()| face::encode(ARCHIVE, kind, 0, &id, &sample.area, &sample.parts, &mut out),
            ),
            wrapped: time(batch, || (), |()| wrapped()),
        }
    });
}

fn rows(count: usize, null: impl Fn(usize) -> bool) -> Vec<MaybeRow> {
    let text = Bytes::from(noise(13));
    (0..count)
        .map(|i| {
            if null(i) {
                return None;
            }
            let values = [
                Value::Int64(-(i as i64)),
                Value::Uint64(i as u64),
                Value::Double(i as f64 / 3.0),
                Value::Boolean(i % 2 == 0),
                Value::String(text.clone()),
            ];
            Some(
                values
                    .into_iter()
                    .enumerate()
                    .map(|(id, value)| UnversionedValue::new(id as u16, value))
                    .collect(),
            )
        })
        .collect()
}

/// Answers the MB/s at which the large one is read.
fn rowsets(table: &mut Table) -> f64 {
    let rate = rowset(
        table,
        "rowset of 100,000 rows of 5 values",
        1,
        &rows(100_000, |_| false),
    );
    rowset(
        table,
        "rowset of 1,000 rows, every third null",
        100,
        &rows(1_000, |i| i % 3 == 2),
    );
    rate
}

fn rowset(table: &mut Table, name: &str, batch: usize, sample: &[MaybeRow]) -> f64 {
    let wire = wire::encode_rowset(sample).unwrap();
    let count: usize = sample.iter().flatten().map(Vec::len).sum();
    let mut row_table = vec![0u64; sample.len()];
    let mut value_table = vec![0u64; VALUE * count];
    let outcome = face::decode_rowset(&wire, &mut row_table, &mut value_table);
    assert!(outcome.kind == face::ACCEPTED && outcome.values[1] as usize == count);
    let mut decoder = rowsets_of_crate::Decoder::new();
    let rate = table.line(&format!("{name} decoded"), wire.len(), Some(2.0), || {
        Times {
            rust: time(batch, || (), |()| wire::decode_rowset(&wire).unwrap()),
            port: time(
                batch,
                || (),
                |()| face::decode_rowset(&wire, &mut row_table, &mut value_table),
            ),
            wrapped: time(
                batch,
                || (),
                |()| decoder.decode_rowset(&wire).unwrap().len(),
            ),
        }
    });
    table.line(
        &format!("{name} decoded, each value looked at"),
        wire.len(),
        None,
        || {
            let rust = || looked_at(&wire::decode_rowset(&wire).unwrap());
            let mut port = || {
                face::decode_rowset(&wire, &mut row_table, &mut value_table);
                looked_at_words(&value_table)
            };
            let mut wrapped = || looked_at_rows(&decoder.decode_rowset(&wire).unwrap());
            assert!(rust() == port() && rust() == wrapped());
            Times {
                rust: time(batch, || (), |()| rust()),
                port: time(batch, || (), |()| port()),
                wrapped: time(batch, || (), |()| wrapped()),
            }
        },
    );
    table.line(
        &format!("{name} decoded, tables made anew"),
        wire.len(),
        None,
        || Times {
            rust: time(batch, || (), |()| wire::decode_rowset(&wire).unwrap()),
            port: time(
                batch,
                || (),
                |()| {
                    let (mut rows, mut values) = (vec![0u64; sample.len()], vec![0u64; VALUE * count]);
                    face::decode_rowset(&wire, &mut rows, &mut values);
                    (rows, values)
                },
            ),
            wrapped: time(
                batch,
                || (),
                |()| rowsets_of_crate::decode_rowset(&wire).unwrap(),
            ),
        },
    );
    let mut out = vec![0u8; wire.len()];
    let outcome = face::encode_rowset(&wire, &row_table, &value_table, &mut out);
    assert!(outcome.kind == face::ACCEPTED && out == wire);
    let mut buffer = BytesMut::with_capacity(wire.len());
    table.line(&format!("{name}, is it plain"), wire.len(), None, || {
        assert!(face::is_plain(&wire) && rowsets_of_crate::is_plain(&wire));
        Times {
            rust: f64::NAN,
            port: time(batch, || (), |()| face::is_plain(&wire)),
            wrapped: time(batch, || (), |()| rowsets_of_crate::is_plain(&wire)),
        }
    });
    table.line(&format!("{name}, why"), wire.len(), None, || {
        assert!(cablefinch::why::rowset(&wire) == cablefinch::why::Why::Fine);
        Times {
            rust: f64::NAN,
            port: time(batch, || (), |()| face::why_rowset(&wire)),
            wrapped: time(batch, || (), |()| cablefinch::why::rowset(&wire)),
        }
    });
    let read = rowsets_of_crate::decode_rowset(&wire).unwrap();
    let rows: Vec<Option<Vec<_>>> = read
        .rows()
        .map(|row| row.map(|row| row.values().collect()))
        .collect();
    let mut encoder = rowsets_of_crate::Encoder::new();
    assert!(encoder.encode_rowset(&rows).unwrap() == &wire[..]);
    table.line(&format!("{name} encoded"), wire.len(), Some(1.5), || {
        Times {
            rust: time(
                batch,
                || (),
                |()| {
                    buffer.clear();
                    wire::encode_rowset_into(black_box(sample), &mut buffer).unwrap();
                },
            ),
            port: time(
                batch,
                || (),
                |()| face::encode_rowset(&wire, &row_table, &value_table, &mut out),
            ),
            wrapped: time(
                batch,
                || (),
                |()| encoder.encode_rowset(black_box(&rows)).unwrap().len(),
            ),
        }
    });
    table.line(
        &format!("{name} encoded, tables and output made anew"),
        wire.len(),
        None,
        || Times {
            rust: time(
                batch,
                || (),
                |()| wire::encode_rowset(black_box(sample)).unwrap(),
            ),
            port: time(
                batch,
                || (),
                |()| {
                    let mut out = vec![0u8; wire.len()];
                    face::encode_rowset(&wire, &row_table, &value_table, &mut out);
                    out
                },
            ),
            wrapped: time(
                batch,
                || (),
                |()| rowsets_of_crate::encode_rowset(black_box(&rows)).unwrap(),
            ),
        },
    );
    rate
}

/// Something of each value: its column, and its bits or how many bytes it has.
fn looked_at(rows: &[MaybeRow]) -> u64 {
    let each = rows.iter().flatten().flatten().map(|value| {
        let of = match &value.value {
            Value::Null => 0,
            Value::Int64(number) => *number as u64,
            Value::Uint64(number) => *number,
            Value::Double(number) => number.to_bits(),
            Value::Boolean(truth) => u64::from(*truth),
            Value::String(bytes) | Value::Any(bytes) | Value::Composite(bytes) => {
                bytes.len() as u64
            }
        };
        u64::from(value.id) ^ of
    });
    each.fold(0, u64::wrapping_add)
}

fn looked_at_words(values: &[u64]) -> u64 {
    let each = values
        .chunks_exact(5)
        .map(|words| words[0] ^ if words[1] < 16 { words[3] } else { words[4] });
    each.fold(0, u64::wrapping_add)
}

fn looked_at_rows(rowset: &rowsets_of_crate::Rowset<'_>) -> u64 {
    use rowsets_of_crate::Value;
    let each = rowset
        .rows()
        .flatten()
        .flat_map(|row| row.values())
        .map(|value| {
            let of = match value.value {
                Value::Null => 0,
                Value::Int64(number) => number as u64,
                Value::Uint64(number) => number,
                Value::Double(number) => number.to_bits(),
                Value::Boolean(truth) => u64::from(truth),
                Value::String(bytes) | Value::Any(bytes) | Value::Composite(bytes) => {
                    bytes.len() as u64
                }
            };
            u64::from(value.id) ^ of
        });
    each.fold(0, u64::wrapping_add)
}

/// The bytes of a line of [`Listed`].
const LINE: usize = 115;

/// A rowset of 5 values a row, its tables over its bytes, and its text.
struct Listed {
    wire: Vec<u8>,
    rows: Vec<u64>,
    values: Vec<u64>,
    text: Vec<u8>,
}

impl Listed {
    fn of(count: usize) -> Self {
        let wire = wire::encode_rowset(&rows(count, |_| false))
            .unwrap()
            .to_vec();
        let (mut rows, mut values) = (vec![0u64; count], vec![0u64; VALUE * 5 * count]);
        let outcome = face::decode_rowset(&wire, &mut rows, &mut values);
        assert!(outcome.kind == face::ACCEPTED);
        let size = face::text_size(&wire, &rows, &values);
        let mut text = vec![0u8; size.count as usize];
        let outcome = face::write_text(&wire, &rows, &values, &mut text);
        assert!(outcome.kind == face::ACCEPTED && text.len() == LINE * count);
        Self {
            wire,
            rows,
            values,
            text,
        }
    }

    /// How many bytes of text there are for a byte of the rowset.
    fn ratio(&self) -> f64 {
        self.text.len() as f64 / self.wire.len() as f64
    }

    /// Nanoseconds of one call that encodes the rowset, and of one that writes its text.
    fn written(&self, out: &mut [u8]) -> (f64, f64) {
        let (area, rows, values) = (&self.wire, &self.rows, &self.values);
        let encoded = once(|| face::encode_rowset(area, rows, values, out));
        (encoded, once(|| face::write_text(area, rows, values, out)))
    }

    /// Nanoseconds of one call that decodes the rowset, and of one that reads its text.
    fn read(&self, lent: &mut Lent) -> (f64, f64) {
        let Lent { rows, values, area } = lent;
        let decoded = once(|| face::decode_rowset(&self.wire, rows, values));
        (
            decoded,
            once(|| face::read_text(&self.text, rows, values, area)),
        )
    }
}

/// Nanoseconds of one call, which must accept.
fn once(call: impl FnOnce() -> face::Outcome) -> f64 {
    let start = clock();
    let outcome = black_box(call());
    let taken = (clock() - start) as f64;
    assert!(outcome.kind == face::ACCEPTED);
    taken
}

/// The least of as many rounds, of each of two calls that are taken in turn.
fn least(mut round: impl FnMut() -> (f64, f64)) -> (f64, f64) {
    (0..2 * ROUNDS)
        .map(|_| round())
        .fold((f64::INFINITY, f64::INFINITY), |(a, b), (c, d)| {
            (a.min(c), b.min(d))
        })
}

/// The tables and the area that a text is read into.
struct Lent {
    rows: Vec<u64>,
    values: Vec<u64>,
    area: Vec<u8>,
}

impl Lent {
    fn of(listed: &Listed) -> Self {
        Self {
            rows: vec![0; listed.rows.len()],
            values: vec![0; listed.values.len()],
            area: vec![0; listed.text.len()],
        }
    }
}

/// Tab-separated text, which the Rust has not. In its place stands 4 times what the port takes for as many
/// bytes of the rowset itself, and then 2.5 times what the text of half the rows takes.
fn texts(table: &mut Table) {
    const COUNT: usize = 100_000;
    let name = "text of 100,000 rows of 5 values";
    let beside = "beside 4 times the rowset, byte for byte";
    // Made where a line wants them.
    let half = LazyCell::new(|| Listed::of(COUNT));
    let whole = LazyCell::new(|| Listed::of(2 * COUNT));
    let size = LINE * COUNT;
    table.line(
        &format!("{name} written, {beside}"),
        size,
        Some(1.0),
        || {
            let rowset = rowsets_of_crate::decode_rowset(&half.wire).unwrap();
            assert!(rowset.write_text().unwrap() == half.text);
            let mut out = half.text.clone();
            let (encoded, port) = least(|| half.written(&mut out));
            Times {
                rust: 4.0 * half.ratio() * encoded,
                port,
                wrapped: time(1, || (), |()| rowset.write_text().unwrap()),
            }
        },
    );
    table.line(&format!("{name} read, {beside}"), size, Some(1.0), || {
        let mut lent = Lent::of(&half);
        let (decoded, port) = least(|| half.read(&mut lent));
        assert!(lent.rows == half.rows);
        Times {
            rust: 4.0 * half.ratio() * decoded,
            port,
            wrapped: time(
                1,
                || (),
                |()| cablefinch::text::read_text(&half.text).unwrap(),
            ),
        }
    });
    let name = "text of 200,000 rows of 5 values";
    let beside = "beside 2.5 times 100,000";
    let growth = |(once, twice): (f64, f64)| Times {
        rust: 2.5 * once,
        port: twice,
        wrapped: f64::NAN,
    };
    table.line(
        &format!("{name} written, {beside}"),
        2 * size,
        Some(1.0),
        || {
            let mut out = whole.text.clone();
            growth(least(|| {
                (half.written(&mut out).1, whole.written(&mut out).1)
            }))
        },
    );
    table.line(
        &format!("{name} read, {beside}"),
        2 * size,
        Some(1.0),
        || {
            let (mut lent, mut more) = (Lent::of(&half), Lent::of(&whole));
            growth(least(|| (half.read(&mut lent).1, whole.read(&mut more).1)))
        },
    );
}

fn guids(table: &mut Table) {
    let id = id();
    let text = id.to_string();
    let mut out = [0u8; 64];
    assert!(
        face::guid_print(&id.0, &mut out).count as usize == text.len()
            && out.starts_with(text.as_bytes())
    );
    table.line("GUID printed", 16, Some(1.0), || {
        let (mut buffer, mut other) = ([0u8; 64], [0u8; 64]);
        let wrapped = cablefinch::Guid(id.0);
        Times {
            rust: time(
                20_000,
                || (),
                |()| write!(&mut buffer[..], "{}", black_box(&id)).unwrap(),
            ),
            port: time(20_000, || (), |()| face::guid_print(&id.0, &mut out)),
            wrapped: time(
                20_000,
                || (),
                |()| write!(&mut other[..], "{}", black_box(&wrapped)).unwrap(),
            ),
        }
    });
    let parsed = face::guid_parse(text.as_bytes());
    assert!(
        text.parse::<Guid>()
            .unwrap()
            .parts()
            .iter()
            .zip(parsed.values)
            .all(|(&a, b)| u64::from(a) == b)
    );
    table.line("GUID read", text.len(), Some(1.0), || Times {
        rust: time(
            20_000,
            || (),
            |()| black_box(&text[..]).parse::<Guid>().is_ok(),
        ),
        port: time(20_000, || (), |()| face::guid_parse(text.as_bytes())),
        wrapped: time(
            20_000,
            || (),
            |()| black_box(&text[..]).parse::<cablefinch::Guid>().is_ok(),
        ),
    });
}

/// A map of so many items, with keys of 8 and values of 20 bytes.
fn map(items: usize) -> Vec<u8> {
    let text = noise(20 * items);
    let mut bytes = vec![b'{'];
    for (index, value) in text.chunks_exact(20).enumerate() {
        bytes.extend([1, 16]);
        bytes.extend(format!("{index:08}").bytes());
        bytes.extend([b'=', 1, 40]);
        bytes.extend(value);
        bytes.push(b';');
    }
    bytes.push(b'}');
    bytes
}

/// YSON, of which the Rust has no reader: how the time grows with the items of a map, and that it does
/// not with the depth at which bytes stand.
fn notes(table: &mut Table, rowset_rate: f64) {
    let mut rate = f64::NAN;
    for (name, items, batch) in [("2,500", 2_500, 40), ("10,000", 10_000, 10)] {
        let bytes = map(items);
        let mut words = vec![0u64; ITEM * items];
        let outcome = face::yson_items(&bytes, &mut words);
        assert!(outcome.kind == face::ACCEPTED && outcome.values[0] as usize == items);
        let name = format!("YSON map of {name} items");
        rate = table.line(&format!("{name} checked"), bytes.len(), None, || Times {
            rust: f64::NAN,
            port: time(batch, || (), |()| face::yson_check(&bytes)),
            wrapped: time(batch, || (), |()| cablefinch::yson::check(&bytes).unwrap()),
        });
        table.line(&format!("{name} read"), bytes.len(), None, || Times {
            rust: f64::NAN,
            port: time(batch, || (), |()| face::yson_items(&bytes, &mut words)),
            wrapped: time(
                batch,
                || (),
                |()| cablefinch::yson::Yson::read(&bytes).unwrap(),
            ),
        });
    }
    for (name, depth) in [("1 bracket", 1), ("64 brackets", 64)] {
        let open = b"[".repeat(depth);
        let bytes = [open, b"#;".repeat(100_000), b"]".repeat(depth)].concat();
        assert!(face::yson_check(&bytes).kind == face::ACCEPTED);
        let name = format!("YSON list of 100,000 entities in {name}, checked");
        table.line(&name, bytes.len(), None, || Times {
            rust: f64::NAN,
            port: time(10, || (), |()| face::yson_check(&bytes)),
            wrapped: time(10, || (), |()| cablefinch::yson::check(&bytes).unwrap()),
        });
    }
    if !rate.is_nan() && !rowset_rate.is_nan() {
        println!(
            "\nfor scale: the map of 10,000 items is checked at {rate:.0} MB/s, the large rowset read at {rowset_rate:.0} MB/s"
        );
    }
}

/// Errors with a text of 40 bytes and three attributes each, of 8 and 20 bytes: their tables over an area.
struct Errors {
    area: Vec<u8>,
    errors: Vec<u64>,
    attributes: Vec<u64>,
}

const TEXT: usize = 40;
const KEY: usize = 8;
const NOTE: usize = 20;
const EACH: usize = 3;

impl Errors {
    /// One outermost error, and below it one chain after another down to the deepest level. The rows of
    /// attributes stand by error, or all first ones, then all second ones, then all third ones.
    fn new(count: usize, sorted: bool) -> Self {
        let depth = |index: usize| match index {
            0 => 1,
            index => 2 + (index - 1) as u64 % 15,
        };
        let per_error = TEXT + EACH * (KEY + NOTE);
        let errors = (0..count).flat_map(|index| {
            let place = (index * per_error) as u64;
            [500 + index as u64 % 100, depth(index), place, TEXT as u64]
        });
        let row = |index: usize, which: usize| {
            let place = (index * per_error + TEXT + which * (KEY + NOTE)) as u64;
            let value = place + KEY as u64;
            [index as u64, place, KEY as u64, value, NOTE as u64]
        };
        let rows = 0..EACH * count;
        let attributes = match sorted {
            true => rows.flat_map(|k| row(k / EACH, k % EACH)).collect(),
            false => rows.flat_map(|k| row(k % count, k / count)).collect(),
        };
        Self {
            area: noise(count * per_error),
            errors: errors.collect(),
            attributes,
        }
    }

    fn written(&self) -> Vec<u8> {
        let size = face::error_size(&self.area, &self.errors, &self.attributes);
        let mut out = vec![0; size.count as usize];
        let outcome = face::error_write(&self.area, &self.errors, &self.attributes, &mut out);
        assert!(outcome.kind == face::ACCEPTED && outcome.count == size.count);
        out
    }
}

/// Error messages, of which the Rust's four files have no reader: how the time grows with the errors,
/// and what attributes cost that do not stand by error.
fn messages(table: &mut Table) {
    for (name, count, batch) in [("10,000", 10_000, 4), ("20,000", 20_000, 2)] {
        let of = Errors::new(count, true);
        let bytes = of.written();
        let mut errors = vec![0u64; ERROR * count];
        let mut attributes = vec![0u64; ATTRIBUTE * EACH * count];
        let outcome = face::error_read(&bytes, &mut errors, &mut attributes);
        assert!(outcome.values[..2] == [count as u64, (EACH * count) as u64]);
        let name = format!("TError of {name} errors with three attributes each");
        table.line(&format!("{name} read"), bytes.len(), None, || Times {
            rust: f64::NAN,
            port: time(
                batch,
                || (),
                |()| face::error_read(&bytes, &mut errors, &mut attributes),
            ),
            wrapped: time(
                batch,
                || (),
                |()| cablefinch::error::TError::read(&bytes).unwrap(),
            ),
        });
        let mut out = vec![0; bytes.len()];
        let read = cablefinch::error::TError::read(&bytes).unwrap();
        assert!(read.encode().unwrap() == bytes);
        table.line(&format!("{name} written"), bytes.len(), None, || Times {
            rust: f64::NAN,
            port: time(
                batch,
                || (),
                |()| face::error_write(&of.area, &of.errors, &of.attributes, &mut out),
            ),
            wrapped: time(batch, || (), |()| read.encode().unwrap()),
        });
    }
    for (name, count) in [("2,500", 2_500), ("5,000", 5_000)] {
        let of = Errors::new(count, false);
        let mut out = of.written();
        assert!(out == Errors::new(count, true).written());
        let name = format!("TError of {name} errors, attributes not by error, written");
        table.line(&name, out.len(), None, || Times {
            rust: f64::NAN,
            port: time(
                1,
                || (),
                |()| face::error_write(&of.area, &of.errors, &of.attributes, &mut out),
            ),
            wrapped: f64::NAN,
        });
    }
}

/// The bytes of each string that is packed.
const STRING: usize = 20;

/// A table of strings, of which each lies at the place of the given number, and its area.
fn strings(count: usize, place: impl Fn(usize) -> usize) -> (Vec<u8>, Vec<u64>) {
    let values = (0..count)
        .flat_map(|i| [7, 16, 0, (STRING * place(i)) as u64, STRING as u64])
        .collect();
    (noise(STRING * count), values)
}

/// A packing of a table and its area, ready to be timed.
struct Packing {
    area: Vec<u8>,
    values: Vec<u64>,
    out: Vec<u8>,
}

impl Packing {
    fn of((area, values): (Vec<u8>, Vec<u64>)) -> Self {
        let out = vec![0u8; area.len()];
        Self { area, values, out }
    }

    /// Nanoseconds of one call over a fresh copy of the table.
    fn once(&mut self) -> f64 {
        let mut values = self.values.clone();
        let start = clock();
        let outcome = black_box(face::pack(&self.area, &mut values, &mut self.out));
        let taken = (clock() - start) as f64;
        assert!(outcome.kind == face::ACCEPTED);
        taken
    }
}

/// The least of as many rounds of two calls, taken in turn. Memory that others use meanwhile shows in
/// large tables, and the least time has least of it.
fn least_of_two(mut first: impl FnMut() -> f64, mut second: impl FnMut() -> f64) -> (f64, f64) {
    (0..2 * ROUNDS)
        .map(|_| (first(), second()))
        .fold((f64::INFINITY, f64::INFINITY), |(a, b), (c, d)| {
            (a.min(c), b.min(d))
        })
}

/// A table whose pairs all have bucket 0, as `bucket_word` of crates/pack has it: what a peer could send
/// that knows it. The area is zeros, of which few are ever touched.
fn one_bucket(count: usize) -> (Vec<u8>, Vec<u64>) {
    let area = vec![0u8; 1 << 31];
    let mut values = Vec::new();
    'filled: for block in 0..1u64 << 15 {
        let start = block * 2_654_435_769 / 1024;
        for sixteen in 4096 * block..4096 * (block + 1) {
            // A length that makes up for the rest, where there is one below 32.
            let length = count as u64 - (start + sixteen) % count as u64;
            if length < 32 {
                for offset in 16 * sixteen..16 * (sixteen + 1) {
                    if values.len() == VALUE * count {
                        break 'filled;
                    }
                    values.extend([7, 16, 0, offset, length]);
                }
            }
        }
    }
    assert!(values.len() == VALUE * count);
    (area, values)
}

/// Packing, which the Rust has not. In its place stands what `encode_rowset` takes for the same tables in
/// rows of five, and then 2.5 times what packing half as many values takes.
fn packing(table: &mut Table) {
    const COUNT: usize = 500_000;
    let rows = vec![5; COUNT / 5];
    let places: [(&str, fn(usize) -> usize); 3] = [
        ("pack 500,000 values, pairs distinct, beside writing", |i| i),
        ("pack 500,000 values, pairs equal, beside writing", |_| 0),
        ("pack 500,000 values, half repeated, beside writing", |i| {
            i % (COUNT / 2)
        }),
    ];
    for (name, place) in places {
        table.line(name, STRING * COUNT, Some(0.1), || {
            let (area, values) = strings(COUNT, place);
            let mut out = vec![0u8; 64 + COUNT * (16 + STRING)];
            let mut packing = Packing::of((area.clone(), values.clone()));
            let encode = || {
                let start = clock();
                let outcome = black_box(face::encode_rowset(&area, &rows, &values, &mut out));
                let taken = (clock() - start) as f64;
                assert!(outcome.kind == face::ACCEPTED);
                taken
            };
            let (rust, port) = least_of_two(encode, || packing.once());
            Times {
                rust,
                port,
                wrapped: f64::NAN,
            }
        });
    }
    for (name, hostile) in [
        ("pack 100,000 values, pairs distinct", false),
        ("pack 100,000 values, pairs of one bucket", true),
    ] {
        table.line(name, 0, None, || {
            let mut packing = Packing::of(match hostile {
                true => one_bucket(100_000),
                false => strings(100_000, |i| i),
            });
            let (port, _) = least_of_two(|| packing.once(), || 0.0);
            Times {
                rust: f64::NAN,
                port,
                wrapped: f64::NAN,
            }
        });
    }
    for count in [125_000, 250_000, 500_000, 1_000_000] {
        for (kind, parts) in [("pairs distinct", 1), ("half repeated", 2)] {
            let name = format!(
                "pack {} values, {kind}, beside 2.5 times {count}",
                2 * count
            );
            table.line(&name, 2 * STRING * count, Some(1.0), || {
                let of = |count: usize| Packing::of(strings(count, |i| i % (count / parts)));
                let (mut half, mut whole) = (of(count), of(2 * count));
                let (rust, port) = least_of_two(|| half.once(), || whole.once());
                Times {
                    rust: 2.5 * rust,
                    port,
                    wrapped: f64::NAN,
                }
            });
        }
    }
}

fn main() {
    let mut table = Table {
        wanted: std::env::args().skip(1).collect(),
        missed: 0,
    };
    println!("| name | bytes | Rust | port | Rust / port | bar | crate | Rust / crate |");
    println!("|---|---|---|---|---|---|---|---|");
    checksums(&mut table);
    packets(&mut table);
    let rowset_rate = rowsets(&mut table);
    texts(&mut table);
    packing(&mut table);
    guids(&mut table);
    notes(&mut table, rowset_rate);
    messages(&mut table);
    let (from, mut to) = (noise(1 << 26), vec![0u8; 1 << 26]);
    let copy = time(1, || (), |()| to.copy_from_slice(black_box(&from)));
    println!(
        "\nfor scale: memcpy of 64 MiB {}, {:.1} GB/s",
        scaled(copy),
        (1u64 << 26) as f64 / copy
    );
    match isal() {
        // SAFETY: the pointer is the vector's, with its length.
        Some(sum) => {
            let summed = time(
                1,
                || (),
                |()| unsafe { sum(0, from.as_ptr(), from.len() as u64) },
            );
            println!(
                "for scale: ISA-L's CRC-64 of 64 MiB {}, {:.1} GB/s",
                scaled(summed),
                (1u64 << 26) as f64 / summed
            );
        }
        None => println!("for scale: ISA-L is not at hand"),
    }
    println!("thread CPU time, median of {ROUNDS}, caches warm, buffers not cleared between calls");
    if table.missed > 0 {
        println!("{} bars missed", table.missed);
        std::process::exit(1);
    }
}
