//! How much memory the readers of error messages and of text take for hostile ones, by an allocator that
//! counts. One test alone, since what it counts is the whole program's.

use cablefinch::error::{ErrorRefusal, TError};
use cablefinch::text;
use std::alloc::{GlobalAlloc, Layout, System};
use std::sync::atomic::{AtomicUsize, Ordering::Relaxed};

struct Counting;

static HELD: AtomicUsize = AtomicUsize::new(0);
static MOST: AtomicUsize = AtomicUsize::new(0);

fn more(bytes: usize) {
    MOST.fetch_max(HELD.fetch_add(bytes, Relaxed) + bytes, Relaxed);
}

// SAFETY: every call goes to the system's allocator as it came.
unsafe impl GlobalAlloc for Counting {
    unsafe fn alloc(&self, layout: Layout) -> *mut u8 {
        more(layout.size());
        unsafe { System.alloc(layout) }
    }

    unsafe fn dealloc(&self, pointer: *mut u8, layout: Layout) {
        HELD.fetch_sub(layout.size(), Relaxed);
        unsafe { System.dealloc(pointer, layout) }
    }

    unsafe fn realloc(&self, pointer: *mut u8, layout: Layout, size: usize) -> *mut u8 {
        HELD.fetch_sub(layout.size(), Relaxed);
        more(size);
        unsafe { System.realloc(pointer, layout, size) }
    }
}

#[global_allocator]
static ALLOCATOR: Counting = Counting;

/// What the call answers, and the most bytes that it held beyond those held before.
fn most<T>(call: impl FnOnce() -> T) -> (T, usize) {
    let before = HELD.load(Relaxed);
    MOST.store(before, Relaxed);
    let answer = call();
    (answer, MOST.load(Relaxed) - before)
}

/// A length-delimited field.
fn field(tag: u8, content: &[u8]) -> Vec<u8> {
    let mut bytes = vec![tag];
    let mut length = content.len();
    while length >= 0x80 {
        bytes.push(length as u8 | 0x80);
        length >>= 7;
    }
    bytes.push(length as u8);
    bytes.extend_from_slice(content);
    bytes
}

#[test]
fn hostile_bytes_take_little() {
    hostile_messages();
    hostile_texts();
}

/// Refused at their first byte or at their last, texts take four times their bytes at most.
fn hostile_texts() {
    let pieces: [&[u8]; 7] = [
        b"\t",
        b"\n",
        b"#\n",
        b"0:n\t",
        b"0:n\n",
        b"\t\n\n\n",
        b"0:sby-catch\t1:sBeifang,%20der\n",
    ];
    for piece in pieces {
        for (front, back) in [("x", ""), ("", "x")] {
            let middle = piece.repeat(100_000);
            let bytes = [front.as_bytes(), &middle, back.as_bytes()].concat();
            let (refused, most) = most(|| text::read_text(&bytes).unwrap_err());
            assert!(matches!(refused.code(), 19 | 11));
            assert!(most <= 4 * bytes.len(), "{most}, {}", bytes.len());
        }
    }
}

fn hostile_messages() {
    const COUNT: usize = 200_000;
    // A few words more than a multiple of the message.
    const SLACK: usize = 1 << 10;
    let errors = b"\x22\x00".repeat(COUNT);
    let attributes = field(0x1a, &b"\x0a\x00".repeat(COUNT));
    let last = [
        &b"\x22\x04\x1a\x02\x0a\x00".repeat(COUNT)[..],
        b"\x1a\x02\x0a\x00",
    ]
    .concat();

    // Read, they hold 32 bytes an error and 40 an attribute, and a table is put in order beside itself.
    for (bytes, held, taken) in [(&errors, 16, 17), (&attributes, 20, 21), (&last, 12, 20)] {
        let (read, most) = most(|| TError::read(bytes).unwrap());
        assert!(read.memory() <= held * bytes.len() + SLACK);
        assert!(
            most <= taken * bytes.len() + SLACK,
            "{most}, {}",
            bytes.len()
        );
    }

    // With a fault at their end they are refused, and take twice their bytes at most.
    let deep = (1..17).fold(Vec::new(), |inner, _| field(0x22, &inner));
    for bytes in [&errors, &attributes, &last] {
        for fault in [&b"\x0b"[..], b"\x22\x05", &deep] {
            let bytes = [&bytes[..], fault].concat();
            let (refused, most) = most(|| TError::read(&bytes).unwrap_err());
            assert!(matches!(refused.code(), 22 | 23));
            assert!(
                refused
                    .place()
                    .is_some_and(|place| place >= bytes.len() - fault.len())
            );
            assert!(most <= 2 * bytes.len() + SLACK, "{most}, {}", bytes.len());
        }
    }

    // Within a bound no more is taken than that many entries.
    for bytes in [&errors, &attributes, &last] {
        let (refused, most) = most(|| TError::read_within(bytes, 100, 100).unwrap_err());
        assert_eq!(refused.code(), 17);
        assert!(most <= 100 * (32 + 40) + SLACK, "{most}");
    }
    let count = COUNT + 1;
    let limit = COUNT;
    assert_eq!(
        TError::read_within(&errors, limit, 0),
        Err(ErrorRefusal::TooManyErrors { count, limit })
    );
}
