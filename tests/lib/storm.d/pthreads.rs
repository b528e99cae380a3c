//! The locks of `std::sync` that the target uses, over those of the C library, for a build under helgrind: it sees what
//! pthreads do, and doesn't see the futexes of Rust's own locks.

use std::cell::UnsafeCell;
use std::ops::{Deref, DerefMut};
use std::time::{Duration, SystemTime, UNIX_EPOCH};

pub use std::sync::{Arc, LockResult, PoisonError, Weak};

/// Room for the greatest of pthread_mutex_t and pthread_cond_t on 64-bit Linux. All zeros is a new one of either.
#[repr(C, align(16))]
struct Raw(UnsafeCell<[u64; 8]>);

#[repr(C)]
struct Timespec {
    seconds: i64,
    nanoseconds: i64,
}

extern "C" {
    fn pthread_mutex_lock(mutex: *mut Raw) -> i32;
    fn pthread_mutex_unlock(mutex: *mut Raw) -> i32;
    fn pthread_cond_wait(condition: *mut Raw, mutex: *mut Raw) -> i32;
    fn pthread_cond_timedwait(condition: *mut Raw, mutex: *mut Raw, until: *const Timespec) -> i32;
    fn pthread_cond_signal(condition: *mut Raw) -> i32;
    fn pthread_cond_broadcast(condition: *mut Raw) -> i32;
}

impl Raw {
    /// On the heap, as it must not move. It is never freed, so that no destruction has to be ordered.
    fn leak() -> &'static mut Raw {
        Box::leak(Box::new(Raw(UnsafeCell::new([0; 8]))))
    }
}

pub struct Mutex<T> {
    raw: *mut Raw,
    value: UnsafeCell<T>,
}

unsafe impl<T: Send> Send for Mutex<T> {}
unsafe impl<T: Send> Sync for Mutex<T> {}

pub struct MutexGuard<'a, T>(&'a Mutex<T>);

impl<T> Mutex<T> {
    pub fn new(value: T) -> Mutex<T> {
        Mutex { raw: Raw::leak(), value: UnsafeCell::new(value) }
    }

    pub fn lock(&self) -> LockResult<MutexGuard<'_, T>> {
        unsafe { pthread_mutex_lock(self.raw) };
        Ok(MutexGuard(self))
    }
}

impl<T: Default> Default for Mutex<T> {
    fn default() -> Mutex<T> {
        Mutex::new(T::default())
    }
}

impl<T> Deref for MutexGuard<'_, T> {
    type Target = T;
    fn deref(&self) -> &T {
        unsafe { &*self.0.value.get() }
    }
}

impl<T> DerefMut for MutexGuard<'_, T> {
    fn deref_mut(&mut self) -> &mut T {
        unsafe { &mut *self.0.value.get() }
    }
}

impl<T> Drop for MutexGuard<'_, T> {
    fn drop(&mut self) {
        unsafe { pthread_mutex_unlock(self.0.raw) };
    }
}

pub struct Condvar(*mut Raw);

unsafe impl Send for Condvar {}
unsafe impl Sync for Condvar {}

impl Default for Condvar {
    fn default() -> Condvar {
        Condvar::new()
    }
}

impl Condvar {
    pub fn new() -> Condvar {
        Condvar(Raw::leak())
    }

    pub fn notify_one(&self) {
        unsafe { pthread_cond_signal(self.0) };
    }

    pub fn notify_all(&self) {
        unsafe { pthread_cond_broadcast(self.0) };
    }

    pub fn wait_while<'a, T>(
        &self,
        mut guard: MutexGuard<'a, T>,
        mut is_waiting: impl FnMut(&mut T) -> bool,
    ) -> LockResult<MutexGuard<'a, T>> {
        while is_waiting(&mut guard) {
            unsafe { pthread_cond_wait(self.0, guard.0.raw) };
        }
        Ok(guard)
    }

    pub fn wait_timeout_while<'a, T>(
        &self,
        mut guard: MutexGuard<'a, T>,
        wait: Duration,
        mut is_waiting: impl FnMut(&mut T) -> bool,
    ) -> LockResult<(MutexGuard<'a, T>, ())> {
        // No wait is as long as a hundred years.
        let wait = wait.min(Duration::from_secs(100 * 366 * 86_400));
        let until = SystemTime::now().duration_since(UNIX_EPOCH).unwrap_or_default() + wait;
        let time = Timespec { seconds: until.as_secs() as i64, nanoseconds: until.subsec_nanos().into() };
        while is_waiting(&mut guard) {
            if unsafe { pthread_cond_timedwait(self.0, guard.0.raw, &time) } != 0 {
                break;
            }
        }
        Ok((guard, ()))
    }
}

/// Readers don't share it; that changes no order that the target may rely on.
pub struct RwLock<T>(Mutex<T>);

impl<T> RwLock<T> {
    pub fn new(value: T) -> RwLock<T> {
        RwLock(Mutex::new(value))
    }

    pub fn read(&self) -> LockResult<MutexGuard<'_, T>> {
        self.0.lock()
    }

    pub fn write(&self) -> LockResult<MutexGuard<'_, T>> {
        self.0.lock()
    }
}

/// The channels of `std::sync::mpsc` that the target uses. Nobody asks how they end, so an error says nothing.
pub mod mpsc {
    use super::{Arc, Condvar, Mutex, PoisonError};
    use std::collections::VecDeque;

    struct Channel<T> {
        items: Mutex<VecDeque<T>>,
        is_filled: Condvar,
        most: usize,
    }

    pub struct Sender<T>(Arc<Channel<T>>);
    pub struct Receiver<T>(Arc<Channel<T>>);
    pub type SyncSender<T> = Sender<T>;

    pub fn channel<T>() -> (Sender<T>, Receiver<T>) {
        sync_channel(usize::MAX)
    }

    pub fn sync_channel<T>(most: usize) -> (Sender<T>, Receiver<T>) {
        let channel = Arc::new(Channel { items: Mutex::default(), is_filled: Condvar::new(), most });
        (Sender(channel.clone()), Receiver(channel))
    }

    impl<T> Sender<T> {
        pub fn send(&self, item: T) -> Result<(), T> {
            self.try_send(item)
        }

        pub fn try_send(&self, item: T) -> Result<(), T> {
            let mut items = self.0.items.lock().unwrap_or_else(PoisonError::into_inner);
            if items.len() >= self.0.most {
                return Err(item);
            }
            items.push_back(item);
            self.0.is_filled.notify_one();
            Ok(())
        }
    }

    impl<T> Receiver<T> {
        pub fn recv(&self) -> Result<T, ()> {
            let items = self.0.items.lock().unwrap_or_else(PoisonError::into_inner);
            let mut items = self.0.is_filled.wait_while(items, |items| items.is_empty()).unwrap_or_else(PoisonError::into_inner);
            items.pop_front().ok_or(())
        }
    }
}
