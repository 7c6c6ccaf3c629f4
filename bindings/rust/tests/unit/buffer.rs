//! How many bytes a buffer says that it holds.
use super::*;
use std::sync::atomic::{AtomicUsize, Ordering};

/// A sink that refuses each third text.
#[derive(Debug, Default)]
struct Fickle(AtomicUsize);

impl MetricSink for Fickle {
    fn emit(&self, text: &str) -> io::Result<usize> {
        match self.0.fetch_add(1, Ordering::Relaxed) % 3 {
            2 => Err(io::ErrorKind::ConnectionRefused.into()),
            _ => Ok(text.len()),
        }
    }
}

#[test]
fn the_held_length_is_that_of_the_held_text() {
    let (mut most, mut refused) = (0, 0);
    for capacity in [0, 1, 8, 64, 512] {
        let buffer = Buffer::new(Fickle::default(), capacity).unwrap();
        for n in 0..1_000 {
            refused += usize::from(buffer.emit(&"é".repeat(n * 7 % 23)).is_err());
            if n % 50 == 0 {
                let _ = buffer.flush();
            }
            let mut packer = buffer.packer();
            let held = packer.held().len();
            assert_eq!(held, packer.held_len());
            most = most.max(held);
        }
    }
    assert!(most > 500 && refused > 100, "{most} {refused}");
}
