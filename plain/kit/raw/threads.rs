//! Creates a thread if memory allows; Rust's own `spawn` aborts if memory runs out.

#[cfg(unix)]
mod system {
    use std::os::raw::{c_int, c_void};
    use std::panic::{catch_unwind, AssertUnwindSafe};

    /// `pthread_t`: a number or a pointer, with the size of a machine word.
    type Thread = usize;

    extern "C" {
        fn pthread_create(
            thread: *mut Thread,
            attributes: *const c_void,
            run: extern "C" fn(*mut c_void) -> *mut c_void,
            task: *mut c_void,
        ) -> c_int;
        fn pthread_join(thread: Thread, result: *mut *mut c_void) -> c_int;
    }

    struct Task<'a> {
        call: &'a mut (dyn FnMut() + Send),
        has_panicked: bool,
    }

    extern "C" fn run(task: *mut c_void) -> *mut c_void {
        // SAFETY: `beside` passes a task, and doesn't access it before this thread has ended.
        let task = unsafe { &mut *task.cast::<Task<'_>>() };
        task.has_panicked = catch_unwind(AssertUnwindSafe(|| (task.call)())).is_err();
        core::ptr::null_mut()
    }

    /// A thread that is joined even if its creator panics.
    struct Joined(Thread);

    impl Drop for Joined {
        fn drop(&mut self) {
            // SAFETY: the thread was created and is joined once.
            unsafe { pthread_join(self.0, core::ptr::null_mut()) };
        }
    }

    pub fn beside(one: &mut (dyn FnMut() + Send), other: &mut dyn FnMut()) -> bool {
        let mut task = Task { call: one, has_panicked: false };
        let at: *mut Task<'_> = &mut task;
        let mut thread = 0;
        // SAFETY: the task lives until the thread has ended, because `Joined` waits for it. It may move to another
        // thread, because its closure is `Send`.
        let refused = unsafe { pthread_create(&mut thread, core::ptr::null(), run, at.cast()) };
        if refused != 0 {
            return false;
        }
        let joined = Joined(thread);
        other();
        drop(joined);
        // SAFETY: the thread has ended.
        assert!(!unsafe { (*at).has_panicked }, "a thread panicked");
        true
    }
}

#[cfg(not(unix))]
mod system {
    use std::thread::{scope, Builder};

    pub fn beside(one: &mut (dyn FnMut() + Send), other: &mut dyn FnMut()) -> bool {
        scope(|all| match Builder::new().spawn_scoped(all, one) {
            Ok(_) => {
                other();
                true
            }
            Err(_) => false,
        })
    }
}

/// Calls `one` in a separate thread and `other` here. Returns false if no thread can be created; then neither is
/// called.
pub use system::beside;
