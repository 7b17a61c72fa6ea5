//! Runs tasks on separate threads. In Rattle, a scope's `spawn_with` reports whether a thread was created, and its
//! promise states what the thread returns. Here, the kit's `beside` reports whether a thread was created.

use super::cell::{put, take, Task, TaskCell};
use super::start::Start;
use crate::kit::sync::Wait;
use crate::kit::thread::{beside, Threads};

/// Runs a cell's task, or gives the task up if no thread could be created for it.
fn work_at<E, T: Task<E>>(start: &Start, cell: &mut TaskCell<T, E>) {
    let task = take(cell);
    let end = if start.is_missing() { task.give_up() } else { task.run() };
    put(cell, end);
}

/// Runs the task of each cell, and calls the host when each task has a thread or has been given up.
fn run_cells<E: Send, T: Task<E> + Send>(starts: &[Start], host: &mut dyn FnMut(), cells: &mut [TaskCell<T, E>]) {
    let (start, starts, cell, cells) = match (starts.split_first(), cells.split_first_mut()) {
        (Some((start, starts)), Some((cell, cells))) => (start, starts, cell, cells),
        _ => return host(),
    };
    if !beside(&mut || work_at(start, cell), &mut || run_cells(starts, host, cells)) {
        start.refuse();
        work_at(start, cell);
        run_cells(starts, host, cells);
    }
}

/// Runs the task of each cell on a separate thread, and calls the host on this thread in the meantime.
///
/// Waits for a created thread, however long the thread takes to start. If no thread can be created, the task is given
/// up immediately, before the host is called, and its `Start` reports this from then on.
pub fn run<R: Threads + Wait, E: Send, T: Task<E> + Send, H: FnMut()>(
    _: &R,
    starts: &[Start],
    host: &mut H,
    cells: &mut [TaskCell<T, E>],
) {
    run_cells(starts, host, cells);
}
