//! A ring between one writer and one reader. With `--cfg exchanges` its ends tell each other how far they are by exchanges, as
//! the toolchain's rings do, otherwise by stores.
use std::cell::UnsafeCell;
use std::mem::MaybeUninit;
use std::sync::Arc;
use std::sync::atomic::{AtomicUsize, Ordering};

struct Ring<T> {
    places: Box<[UnsafeCell<MaybeUninit<T>>]>,
    read: AtomicUsize,
    written: AtomicUsize,
}

// One end writes places that the other doesn't read yet.
unsafe impl<T: Send> Sync for Ring<T> {}

/// Tells the other end how far this one is.
fn tell(place: &AtomicUsize, value: usize) {
    if cfg!(exchanges) {
        place.swap(value, Ordering::AcqRel);
    } else {
        place.store(value, Ordering::Release);
    }
}

/// The end that writes. It keeps what it last saw of the other.
pub struct Writer<T> {
    ring: Arc<Ring<T>>,
    written: usize,
    read: usize,
}

/// The end that reads.
pub struct Reader<T> {
    ring: Arc<Ring<T>>,
    read: usize,
    written: usize,
}

pub fn ring<T>(room: usize) -> (Writer<T>, Reader<T>) {
    let ring = Arc::new(Ring {
        places: (0..room).map(|_| UnsafeCell::new(MaybeUninit::uninit())).collect(),
        read: AtomicUsize::new(0),
        written: AtomicUsize::new(0),
    });
    let writer = Writer {
        ring: ring.clone(),
        written: 0,
        read: 0,
    };
    let reader = Reader {
        ring,
        read: 0,
        written: 0,
    };
    (writer, reader)
}

impl<T> Writer<T> {
    /// Gives the value back where the ring is full.
    pub fn push(&mut self, value: T) -> Result<(), T> {
        let room = self.ring.places.len();
        if self.written - self.read == room {
            self.read = self.ring.read.load(Ordering::Acquire);
            if self.written - self.read == room {
                return Err(value);
            }
        }
        unsafe { (*self.ring.places[self.written % room].get()).write(value) };
        self.written += 1;
        tell(&self.ring.written, self.written);
        Ok(())
    }
}

impl<T> Reader<T> {
    pub fn pop(&mut self) -> Option<T> {
        if self.read == self.written {
            self.written = self.ring.written.load(Ordering::Acquire);
            if self.read == self.written {
                return None;
            }
        }
        let room = self.ring.places.len();
        let value = unsafe { (*self.ring.places[self.read % room].get()).assume_init_read() };
        self.read += 1;
        tell(&self.ring.read, self.read);
        Some(value)
    }
}
