//! The largest depth of the stack. The calls run on a thread whose stack is memory of our own,
//! painted before: the lowest byte that lost its paint tells how deep they went.

use std::ffi::c_void;

/// The bytes of the painted stack.
const STACK: usize = 256 * 1024;
/// The paint.
const PAINT: u8 = 0xa5;

/// Memory for a stack, as aligned as a page.
#[repr(C, align(4096))]
struct Stack([u8; STACK]);

/// The attributes of a thread; larger than the C library's own.
#[repr(C, align(16))]
struct Attributes([u64; 16]);

extern "C" {
    fn pthread_attr_init(attributes: *mut Attributes) -> i32;
    fn pthread_attr_setstack(attributes: *mut Attributes, stack: *mut c_void, size: usize) -> i32;
    fn pthread_create(
        thread: *mut usize,
        attributes: *const Attributes,
        start: extern "C" fn(*mut c_void) -> *mut c_void,
        job: *mut c_void,
    ) -> i32;
    fn pthread_join(thread: usize, result: *mut *mut c_void) -> i32;
}

/// The calls to run, and where the stack stood before them.
struct Job<'a> {
    calls: &'a mut dyn FnMut(),
    top: usize,
}

/// What the thread does.
extern "C" fn start(job: *mut c_void) -> *mut c_void {
    // SAFETY: the job outlives the thread, which is joined before it is looked at again.
    let job = unsafe { &mut *job.cast::<Job>() };
    let here = 0u8;
    job.top = std::ptr::from_ref(&here) as usize;
    (job.calls)();
    std::ptr::null_mut()
}

/// The bytes of stack that some calls use, below the thread's first function.
pub fn depth(calls: &mut dyn FnMut()) -> usize {
    let mut stack = Box::new(Stack([PAINT; STACK]));
    let mut job = Job { calls, top: 0 };
    run(&mut stack, &mut job);
    let untouched = stack.0.iter().take_while(|&&byte| byte == PAINT).count();
    job.top - (stack.0.as_ptr() as usize + untouched)
}

/// Runs the job on a thread with this stack, and waits for it.
fn run(stack: &mut Stack, job: &mut Job) {
    let mut attributes = Attributes([0; 16]);
    let mut thread = 0;
    let memory = stack.0.as_mut_ptr().cast();
    let job = std::ptr::from_mut(job).cast();
    // SAFETY: stack, attributes and job outlive the thread, which is joined here.
    let failed = unsafe {
        pthread_attr_init(&mut attributes)
            | pthread_attr_setstack(&mut attributes, memory, STACK)
            | pthread_create(&mut thread, &attributes, start, job)
            | pthread_join(thread, std::ptr::null_mut())
    };
    assert_eq!(failed, 0, "the thread for the stack's depth did not run");
}
