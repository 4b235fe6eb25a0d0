//! How much stack the engine needs, and a thread that has it.

/// The most stack that a call of the engine uses, in bytes.
///
/// ```
/// assert_eq!(lizdakk::STACK, 4 * 1024 * 1024);
/// ```
pub const STACK: usize = 4 << 20;

/// Runs `work` on a thread with stack enough for the engine and as much again for the caller: for the functions that
/// end in `_here`, and those of [`boundary`](crate::boundary), where the caller's own stack may be too small. Rust gives
/// a spawned thread 2 MiB unless told otherwise.
///
/// ```
/// let graph = lizdakk::Graph::new();
/// let kept = lizdakk::with_stack(|| lizdakk::decide_here(&graph).map(|kept| kept.modules().count()))?;
/// assert_eq!(kept, 0);
/// # Ok::<(), lizdakk::Refused>(())
/// ```
///
/// # Panics
/// If the system gives no thread, and with the panic of `work`.
#[cfg(feature = "std")]
pub fn with_stack<T: Send>(work: impl FnOnce() -> T + Send) -> T {
    std::thread::scope(|scope| {
        let thread = std::thread::Builder::new().stack_size(2 * STACK).spawn_scoped(scope, work);
        match thread.expect("a thread can be started").join() {
            Ok(answer) => answer,
            Err(panic) => std::panic::resume_unwind(panic),
        }
    })
}
