//! How much stack a call takes: it runs in a thread whose stack is painted memory of ours, and what is
//! no longer painted was touched. `c/stack.c`, which the gate runs, does the same without a thread.

#[cfg(unix)]
pub use painted::touched;

/// Not known here.
#[cfg(not(unix))]
pub fn touched(_: &mut dyn FnMut()) -> Option<usize> {
    None
}

#[cfg(unix)]
mod painted {
    use std::ffi::{c_int, c_void};
    use std::hint::black_box;
    use std::ptr::null_mut;

    const PAINT: u8 = 0xa5;
    const PAGE: usize = 1 << 12;
    const PAGES: usize = 1 << 8;

    /// A part of the stack, aligned as systems want stacks.
    #[repr(C, align(4096))]
    #[derive(Clone, Copy)]
    struct Page([u8; PAGE]);

    /// Room for a `pthread_attr_t`: 56 bytes with glibc and musl, 64 on macOS.
    #[repr(C, align(16))]
    struct Attributes([u8; 256]);

    extern "C" {
        fn pthread_attr_init(attributes: *mut Attributes) -> c_int;
        fn pthread_attr_setstack(
            attributes: *mut Attributes,
            lowest: *mut c_void,
            size: usize,
        ) -> c_int;
        fn pthread_attr_destroy(attributes: *mut Attributes) -> c_int;
        fn pthread_create(
            thread: *mut *mut c_void,
            attributes: *const Attributes,
            start: extern "C" fn(*mut c_void) -> *mut c_void,
            argument: *mut c_void,
        ) -> c_int;
        fn pthread_join(thread: *mut c_void, value: *mut *mut c_void) -> c_int;
    }

    /// What the thread is told, and tells.
    struct Task<'a> {
        call: &'a mut dyn FnMut(),
        lowest: *const u8,
        touched: usize,
    }

    /// Looks right after the call: what ends a thread takes stack too.
    extern "C" fn start(argument: *mut c_void) -> *mut c_void {
        // SAFETY: it is the task of `touched`, which waits for this thread and does not use it meanwhile.
        let task = unsafe { &mut *argument.cast::<Task>() };
        let here = 0_u8;
        (task.call)();
        // An address of this frame, which the compiler may not do without.
        let end = black_box(&here as *const u8) as usize - task.lowest as usize;
        // SAFETY: these bytes lie in the painted memory, which is all initialised.
        let painted = |place: &usize| unsafe { task.lowest.add(*place).read_volatile() } == PAINT;
        let untouched = (0..end).take_while(painted).count();
        task.touched = end - untouched;
        null_mut()
    }

    /// Bytes of stack that a call touches, with what it takes to call it; none where this is not known.
    pub fn touched(call: &mut dyn FnMut()) -> Option<usize> {
        let mut stack = vec![Page([PAINT; PAGE]); PAGES];
        let lowest: *mut c_void = stack.as_mut_ptr().cast();
        let mut task = Task {
            call,
            lowest: lowest.cast(),
            touched: 0,
        };
        let mut attributes = Attributes([0; 256]);
        let mut thread = null_mut();
        let done = |failed| assert_eq!(failed, 0, "no thread with a stack of its own");
        // SAFETY: the attributes have room; the stack and the task live until the thread has ended.
        unsafe {
            done(pthread_attr_init(&mut attributes));
            done(pthread_attr_setstack(&mut attributes, lowest, PAGES * PAGE));
            let task: *mut Task = &mut task;
            done(pthread_create(&mut thread, &attributes, start, task.cast()));
            done(pthread_join(thread, null_mut()));
            done(pthread_attr_destroy(&mut attributes));
        }
        Some(task.touched)
    }
}

#[cfg(all(test, unix))]
mod tests {
    use super::*;
    use std::hint::black_box;

    #[test]
    fn an_array_shows() {
        #[inline(never)]
        fn fills<const N: usize>() {
            black_box(&mut [1_u8; N]);
        }
        let nothing = touched(&mut || ()).expect("a thread");
        let small = touched(&mut fills::<2000>).expect("a thread");
        let large = touched(&mut fills::<9000>).expect("a thread");
        assert!(nothing < 1000, "{nothing}");
        assert!((2000..3000).contains(&small), "{small}");
        assert!((9000..10_000).contains(&large), "{large}");
    }
}
