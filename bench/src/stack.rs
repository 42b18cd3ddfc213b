//! The stack that a call uses: it is made on a stack of its own, filled with a pattern, and the deepest byte that changed tells.

use crate::engines::Engine;
use crate::stores::Sample;
use std::os::raw::{c_int, c_ulong, c_void};
use std::ptr;
use std::sync::atomic::{AtomicPtr, Ordering};

/// The words of the stack: 512 KB.
const WORDS: usize = 65_536;

/// `ucontext_t` of the GNU C library: its first fields, and room to spare for the others.
#[repr(C, align(16))]
struct Context {
    flags: c_ulong,
    link: *mut Context,
    stack: *mut c_void,
    stack_flags: c_int,
    stack_size: usize,
    others: [u64; 512],
}

extern "C" {
    fn getcontext(context: *mut Context) -> c_int;
    fn makecontext(context: *mut Context, entry: extern "C" fn(), arguments: c_int, ...);
    fn swapcontext(from: *mut Context, to: *const Context) -> c_int;
}

impl Context {
    fn new() -> Context {
        let nowhere = ptr::null_mut();
        Context { flags: 0, link: ptr::null_mut(), stack: nowhere, stack_flags: 0, stack_size: 0, others: [0; 512] }
    }
}

/// The job that the entry finds.
static JOB: AtomicPtr<&mut dyn FnMut()> = AtomicPtr::new(ptr::null_mut());

extern "C" fn entry() {
    let job = JOB.load(Ordering::SeqCst);
    // The job outlives the stack that it is done on.
    unsafe { (*job)() }
}

fn pattern(i: usize) -> u64 {
    (i as u64 + 1).wrapping_mul(0x9e37_79b9_7f4a_7c15)
}

/// The bytes of stack from the top down to the deepest one that the job changes.
fn depth(mut job: &mut dyn FnMut()) -> usize {
    let mut stack: Vec<u64> = (0..WORDS).map(pattern).collect();
    let (mut here, mut there) = (Context::new(), Context::new());
    JOB.store(ptr::from_mut(&mut job).cast(), Ordering::SeqCst);
    // Both contexts, the stack and the job live until the job is done and control is back here.
    unsafe {
        getcontext(&mut there);
        there.link = &mut here;
        there.stack = stack.as_mut_ptr().cast();
        there.stack_size = 8 * WORDS;
        makecontext(&mut there, entry, 0);
        assert_eq!(swapcontext(&mut here, &there), 0, "no way to the other stack");
    }
    let untouched = (0..WORDS).take_while(|&i| stack[i] == pattern(i)).count();
    assert!(untouched > 0, "the stack is too small");
    8 * (WORDS - untouched)
}

/// The bytes of stack that the job uses, beyond what a job that does nothing uses.
fn used(mut job: impl FnMut() -> u32) -> usize {
    let mut answer = 0;
    let depth_of_job = depth(&mut || answer = job());
    assert!(answer == 0 || answer >= 65_536, "refused {answer}");
    depth_of_job - depth(&mut || ())
}

/// The stack that each call uses on a sample; recover's and recover_stores' is the most that they use on a sound, a cut or a faulty store.
pub fn of_calls(engine: &Engine, sample: &Sample) -> [(&'static str, usize); 12] {
    let Sample { shape, list, position, start, .. } = *sample;
    let (lists, nodes, width) = (shape.lists as u16, shape.nodes as u16, shape.width as u16);
    let mut bytes = sample.bytes.clone();
    let insert = used(|| (engine.insert)(&mut bytes, list, position, start, &sample.record, 65_535));
    let delete = used(|| (engine.delete)(&mut bytes, list, position, 65_535));
    let several = used(|| (engine.insert_several)(&mut bytes, list, position, start, &sample.record, 65_535));
    let (mut unmarked, cell) = (sample.bytes.clone(), sample.free_cell());
    let mark = used(|| (engine.mark_worn)(&mut unmarked, cell));
    let cut = [sample.cut(shape.width + 4), sample.cut(shape.width + 5)];
    let found = [sample.bytes.clone(), sample.faulty(), sample.miscounted()].into_iter().chain(cut);
    let uses =
        found.map(|mut bytes| [used(|| (engine.recover_stores)(&bytes)), used(|| (engine.recover)(&mut bytes, 65_535))]);
    let [needed, recover] = uses.fold([0; 2], |most, [needed, recover]| [most[0].max(needed), most[1].max(recover)]);
    let told = [engine.first_cell, engine.last_cell, engine.several_stores];
    let told = told.map(|ask| used(|| ask(&sample.bytes, list, position, start, &sample.record)));
    [
        ("format", used(|| (engine.format)(&mut bytes, lists, nodes, width))),
        ("check", used(|| (engine.check)(&sample.bytes))),
        ("length", used(|| (engine.length)(&sample.bytes, list))),
        ("insert", insert),
        ("insert_several", several),
        ("delete", delete),
        ("mark_worn", mark),
        ("recover", recover),
        ("insert_several_first_cell", told[0]),
        ("insert_several_last_cell", told[1]),
        ("insert_several_stores", told[2]),
        ("recover_stores", needed),
    ]
}
