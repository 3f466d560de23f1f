//! Fork-join, loops and scopes over the runtime, `liblithe_rt.a`. The names are those of rayon.
//!
//! All closures run before a function returns, so they may borrow. If closures panic, the function panics with one of the
//! payloads, after all closures that had begun have ended. Nothing fails for lack of threads, harts or memory for tasks:
//! closures then run in place.
//!
//! ```text
//! let (a, b) = lithe::join(|| sort(left), || sort(right));
//! cells.par_chunks_mut(64).for_each(|chunk| chunk.fill(0));
//! lithe::scope(|s| {
//!     for part in &parts {
//!         s.spawn(move |_| part.draw());
//!     }
//! });
//! ```

use std::alloc::{alloc, Layout};
use std::any::Any;
use std::cell::UnsafeCell;
use std::ffi::{c_int, c_long, c_void};
use std::marker::PhantomData;
use std::ops::Range;
use std::panic::{catch_unwind, resume_unwind, AssertUnwindSafe};
use std::ptr;
use std::sync::atomic::{AtomicBool, AtomicPtr, Ordering};
use std::sync::Mutex;

#[repr(C)]
struct RawTask {
    run: Option<extern "C" fn(*mut c_void)>,
    arg: *mut c_void,
    group: *mut RawGroup,
    done: u32,
    owner: i32,
}

#[repr(C)]
struct RawGroup {
    state: u64,
    pool: *mut c_void,
    maker: *mut c_void,
    owns: i32,
}

extern "C" {
    fn lithe_join(
        a: extern "C" fn(*mut c_void),
        arg_a: *mut c_void,
        b: extern "C" fn(*mut c_void),
        arg_b: *mut c_void,
    );
    fn lithe_for_ranges(
        n: c_long,
        chunk: c_long,
        body: extern "C" fn(*mut c_void, c_long, c_long),
        arg: *mut c_void,
    );
    fn lithe_group_init(group: *mut RawGroup);
    fn lithe_group_open(group: *mut RawGroup) -> c_int;
    fn lithe_spawn(
        group: *mut RawGroup,
        task: *mut RawTask,
        run: extern "C" fn(*mut c_void),
        arg: *mut c_void,
    );
    fn lithe_group_wait(group: *mut RawGroup);
    fn lithe_count() -> c_int;
    fn lithe_number() -> c_int;
}

/// The number of harts of this process.
pub fn harts() -> usize {
    unsafe { lithe_count() as usize }
}

/// The calling thread's number as a hart; `None` if it isn't one.
pub fn current_hart() -> Option<usize> {
    usize::try_from(unsafe { lithe_number() }).ok()
}

type Payload = Box<dyn Any + Send>;

/// The first panic of several closures.
#[derive(Default)]
struct Failure {
    seen: AtomicBool,
    held: Mutex<Option<Payload>>,
}

impl Failure {
    fn guard(&self, f: impl FnOnce()) {
        if let Err(payload) = catch_unwind(AssertUnwindSafe(f)) {
            self.keep(payload);
        }
    }

    fn keep(&self, payload: Payload) {
        if !self.seen.swap(true, Ordering::AcqRel) {
            *self.held.lock().unwrap_or_else(|it| it.into_inner()) = Some(payload);
        }
    }

    fn seen(&self) -> bool {
        self.seen.load(Ordering::Relaxed)
    }

    fn resume(self) {
        let held = self.held.into_inner().unwrap_or_else(|it| it.into_inner());
        if let Some(payload) = held {
            resume_unwind(payload);
        }
    }
}

/// A closure, and afterwards its result.
struct Call<F, R> {
    f: Option<F>,
    result: Option<Result<R, Payload>>,
}

extern "C" fn run_call<F: FnOnce() -> R, R>(at: *mut c_void) {
    let call = unsafe { &mut *at.cast::<Call<F, R>>() };
    if let Some(f) = call.f.take() {
        call.result = Some(catch_unwind(AssertUnwindSafe(f)));
    }
}

fn result_of<F, R>(call: Call<F, R>) -> R {
    match call.result {
        Some(Ok(result)) => result,
        Some(Err(payload)) => resume_unwind(payload),
        None => unreachable!("lithe_join runs both calls"),
    }
}

/// Calls both, maybe at the same time, and returns both results. The calling thread calls `a`.
pub fn join<A, B, RA, RB>(a: A, b: B) -> (RA, RB)
where
    A: FnOnce() -> RA + Send,
    B: FnOnce() -> RB + Send,
    RA: Send,
    RB: Send,
{
    let mut call_a = Call {
        f: Some(a),
        result: None,
    };
    let mut call_b = Call {
        f: Some(b),
        result: None,
    };
    let (at_a, at_b) = (&raw mut call_a, &raw mut call_b);
    unsafe {
        lithe_join(
            run_call::<A, RA>,
            at_a.cast(),
            run_call::<B, RB>,
            at_b.cast(),
        )
    };
    (result_of(call_a), result_of(call_b))
}

struct Loop<'a, F> {
    body: &'a F,
    start: usize,
    failed: Failure,
}

extern "C" fn run_range<F: Fn(Range<usize>) + Sync>(at: *mut c_void, from: c_long, to: c_long) {
    let this = unsafe { &*at.cast::<Loop<'_, F>>() };
    if this.failed.seen() {
        return;
    }
    let range = this.start + from as usize..this.start + to as usize;
    this.failed.guard(|| (this.body)(range));
}

/// Calls `body` for ranges of at most `chunk` indices that make up `range`. 0: the runtime chooses. After a panic no further
/// range is begun.
pub fn for_each_range<F: Fn(Range<usize>) + Sync>(range: Range<usize>, chunk: usize, body: F) {
    each_range(range, chunk, &body);
}

fn each_range<F: Fn(Range<usize>) + Sync>(range: Range<usize>, chunk: usize, body: &F) {
    let count = range.end.saturating_sub(range.start);
    // C counts with a signed number. A longer range is taken in two halves.
    let Ok(n) = c_long::try_from(count) else {
        let middle = range.start + count / 2;
        each_range(range.start..middle, chunk, body);
        return each_range(middle..range.end, chunk, body);
    };
    let mut this = Loop {
        body,
        start: range.start,
        failed: Failure::default(),
    };
    let chunk = c_long::try_from(chunk).unwrap_or(c_long::MAX);
    unsafe { lithe_for_ranges(n, chunk, run_range::<F>, (&raw mut this).cast()) };
    this.failed.resume();
}

/// Calls `body` for each index of `range`.
pub fn for_each<F: Fn(usize) + Sync>(range: Range<usize>, body: F) {
    for_each_range(range, 0, |part| part.for_each(&body));
}

/// Halves `range` down to `chunk` (0: 64 parts), calls `body` for each part, and combines neighbours in order. The halving
/// doesn't depend on the harts, so the result doesn't either.
pub fn reduce<R, F, C>(range: Range<usize>, chunk: usize, body: &F, combine: &C) -> R
where
    R: Send,
    F: Fn(Range<usize>) -> R + Sync,
    C: Fn(R, R) -> R + Sync,
{
    let count = range.end.saturating_sub(range.start);
    let chunk = if chunk == 0 { count / 64 + 1 } else { chunk };
    if count <= chunk {
        return body(range);
    }
    let middle = range.start + count / 2;
    let (left, right) = join(
        || reduce(range.start..middle, chunk, body, combine),
        || reduce(middle..range.end, chunk, body, combine),
    );
    combine(left, right)
}

/// Chunks of a shared slice.
pub struct ParChunks<'a, T> {
    slice: &'a [T],
    size: usize,
}

impl<T: Sync> ParChunks<'_, T> {
    /// Calls `body` for each chunk.
    pub fn for_each<F: Fn(&[T]) + Sync>(self, body: F) {
        self.enumerate_for_each(|_, chunk| body(chunk));
    }

    /// Calls `body` for each chunk with its number.
    pub fn enumerate_for_each<F: Fn(usize, &[T]) + Sync>(self, body: F) {
        let (slice, size) = (self.slice, self.size);
        for_each_range(0..slice.len().div_ceil(size), 1, |part| {
            for k in part {
                body(k, &slice[k * size..slice.len().min((k + 1) * size)]);
            }
        });
    }
}

/// Chunks of a slice that may be changed.
pub struct ParChunksMut<'a, T> {
    slice: &'a mut [T],
    size: usize,
}

/// A slice's start, for closures that take disjoint parts of it.
struct Start<T>(*mut T);
// Each part of the slice is given to one call.
unsafe impl<T: Send> Sync for Start<T> {}

impl<T> Start<T> {
    /// # Safety
    /// The parts are within the slice, and no two at one time overlap.
    unsafe fn part<'a>(&self, from: usize, to: usize) -> &'a mut [T] {
        std::slice::from_raw_parts_mut(self.0.add(from), to - from)
    }
}

impl<T: Send> ParChunksMut<'_, T> {
    /// Calls `body` for each chunk.
    pub fn for_each<F: Fn(&mut [T]) + Sync>(self, body: F) {
        self.enumerate_for_each(|_, chunk| body(chunk));
    }

    /// Calls `body` for each chunk with its number.
    pub fn enumerate_for_each<F: Fn(usize, &mut [T]) + Sync>(self, body: F) {
        let (len, size) = (self.slice.len(), self.size);
        let start = Start(self.slice.as_mut_ptr());
        let start = &start;
        for_each_range(0..len.div_ceil(size), 1, |part| {
            for k in part {
                body(k, unsafe { start.part(k * size, len.min((k + 1) * size)) });
            }
        });
    }
}

/// Parallel loops over shared slices.
pub trait ParallelSlice<T> {
    /// Chunks of `size` elements; the last may be shorter.
    ///
    /// # Panics
    ///
    /// If `size` is 0.
    fn par_chunks(&self, size: usize) -> ParChunks<'_, T>;
    /// Calls `body` for each element.
    fn par_for_each<F: Fn(&T) + Sync>(&self, body: F);
}

impl<T: Sync> ParallelSlice<T> for [T] {
    fn par_chunks(&self, size: usize) -> ParChunks<'_, T> {
        assert!(size > 0, "chunks have at least one element");
        ParChunks { slice: self, size }
    }

    fn par_for_each<F: Fn(&T) + Sync>(&self, body: F) {
        for_each_range(0..self.len(), 0, |part| self[part].iter().for_each(&body));
    }
}

/// Parallel loops over slices that may be changed.
pub trait ParallelSliceMut<T> {
    /// Chunks of `size` elements; the last may be shorter.
    ///
    /// # Panics
    ///
    /// If `size` is 0.
    fn par_chunks_mut(&mut self, size: usize) -> ParChunksMut<'_, T>;
    /// Calls `body` for each element.
    fn par_for_each_mut<F: Fn(&mut T) + Sync>(&mut self, body: F);
}

impl<T: Send> ParallelSliceMut<T> for [T] {
    fn par_chunks_mut(&mut self, size: usize) -> ParChunksMut<'_, T> {
        assert!(size > 0, "chunks have at least one element");
        ParChunksMut { slice: self, size }
    }

    fn par_for_each_mut<F: Fn(&mut T) + Sync>(&mut self, body: F) {
        let start = Start(self.as_mut_ptr());
        let start = &start;
        for_each_range(0..self.len(), 0, |part| {
            let part = unsafe { start.part(part.start, part.end) };
            part.iter_mut().for_each(&body);
        });
    }
}

/// A spawned closure, in a list of its scope.
#[repr(C)]
struct Node<F> {
    task: RawTask,
    next: *mut Node<()>,
    free: unsafe fn(*mut Node<()>),
    scope: *const c_void,
    f: Option<F>,
}

/// Where closures that borrow from outside of the scope are spawned.
pub struct Scope<'scope> {
    group: UnsafeCell<RawGroup>,
    failed: Failure,
    nodes: AtomicPtr<Node<()>>,
    /// Invariant in `'scope`.
    borrows: PhantomData<UnsafeCell<&'scope ()>>,
}

// lithe_spawn may be called by several harts; the other fields are atomic or locked.
unsafe impl Sync for Scope<'_> {}

unsafe fn free_node<F>(node: *mut Node<()>) {
    drop(Box::from_raw(node.cast::<Node<F>>()));
}

extern "C" fn run_node<'scope, F: FnOnce(&Scope<'scope>) + Send + 'scope>(at: *mut c_void) {
    let node = unsafe { &mut *at.cast::<Node<F>>() };
    let scope = unsafe { &*node.scope.cast::<Scope<'scope>>() };
    if let Some(f) = node.f.take() {
        scope.failed.guard(|| f(scope));
    }
}

impl<'scope> Scope<'scope> {
    /// Calls `f` before the scope ends, maybe on another hart. Without memory for it, calls it in place.
    pub fn spawn<F: FnOnce(&Scope<'scope>) + Send + 'scope>(&self, f: F) {
        let node = unsafe { alloc(Layout::new::<Node<F>>()) }.cast::<Node<F>>();
        if node.is_null() {
            return self.failed.guard(|| f(self));
        }
        let task = RawTask {
            run: None,
            arg: ptr::null_mut(),
            group: ptr::null_mut(),
            done: 0,
            owner: 0,
        };
        let next = self.nodes.load(Ordering::Relaxed);
        unsafe {
            node.write(Node {
                task,
                next,
                free: free_node::<F>,
                scope: ptr::from_ref(self).cast(),
                f: Some(f),
            });
            self.list(node.cast());
            lithe_spawn(
                self.group.get(),
                &raw mut (*node).task,
                run_node::<F>,
                node.cast(),
            );
        }
    }

    unsafe fn list(&self, node: *mut Node<()>) {
        while let Err(is) = self.nodes.compare_exchange_weak(
            (*node).next,
            node,
            Ordering::AcqRel,
            Ordering::Relaxed,
        ) {
            (*node).next = is;
        }
    }

    /// All tasks have ended.
    fn free(&self) {
        let mut node = self.nodes.swap(ptr::null_mut(), Ordering::AcqRel);
        while !node.is_null() {
            unsafe {
                let next = (*node).next;
                ((*node).free)(node);
                node = next;
            }
        }
    }
}

/// Calls `f`, and returns once all closures that were spawned into the scope have ended.
pub fn scope<'scope, R, F: FnOnce(&Scope<'scope>) -> R>(f: F) -> R {
    let group = RawGroup {
        state: 0,
        pool: ptr::null_mut(),
        maker: ptr::null_mut(),
        owns: 0,
    };
    let scope = Scope {
        group: UnsafeCell::new(group),
        failed: Failure::default(),
        nodes: AtomicPtr::new(ptr::null_mut()),
        borrows: PhantomData,
    };
    unsafe {
        lithe_group_init(scope.group.get());
        lithe_group_open(scope.group.get());
    }
    let result = catch_unwind(AssertUnwindSafe(|| f(&scope)));
    unsafe { lithe_group_wait(scope.group.get()) };
    scope.free();
    match result {
        Ok(result) => {
            scope.failed.resume();
            result
        }
        Err(payload) => resume_unwind(payload),
    }
}
