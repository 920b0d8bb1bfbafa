//! Calls of the library on a thread that has the stack it asks for. Each thread that edits maps keeps one such thread, as long as it lives.

use std::sync::mpsc::{Sender, channel};
use std::thread;

use crate::layout::COMMAND_WORDS;
use crate::sys;
use crate::tables::Tables;

/// What a call is lent: the next id, the tables, and words for created, modified, deleted and warnings.
#[derive(Debug, Clone, Default)]
pub struct Lent {
    pub counter: u64,
    pub tables: Tables,
    pub lists: [Vec<u64>; 4],
}

impl Lent {
    fn apply(&mut self, row: &[u64; COMMAND_WORDS]) -> sys::Answer {
        let tables = self.tables.words.each_mut().map(|t| &mut t[..]);
        let lists = self.lists.each_mut().map(|l| &mut l[..]);
        sys::apply(&mut self.counter, tables, &mut self.tables.coordinates, row, lists)
    }

    fn job(&mut self, rows: &[u64], area: &mut Tables) -> sys::JobAnswer {
        let tables = self.tables.words.each_mut().map(|t| &mut t[..]);
        let lists = self.lists.each_mut().map(|l| &mut l[..]);
        let old = area.words.each_mut().map(|t| &mut t[..]);
        sys::job(&mut self.counter, tables, &mut self.tables.coordinates, rows, old, &mut area.coordinates, lists)
    }
}

type Task = Box<dyn FnOnce() + Send>;

/// A thread that runs tasks until nobody is left to send one.
fn start() -> Sender<Task> {
    let (tasks, taken) = channel::<Task>();
    let run = move || taken.into_iter().for_each(|task| task());
    thread::Builder::new().stack_size(sys::STACK).spawn(run).expect("the system gives a thread");
    tasks
}

thread_local! {
    static WORKER: Sender<Task> = start();
}

/// Runs a task on the thread beside this one, and waits for it.
fn beside<T: Send + 'static>(task: impl FnOnce() -> T + Send + 'static) -> T {
    let (answered, answer) = channel();
    let task = Box::new(move || answered.send(task()).expect("the caller waits"));
    WORKER.with(|worker| worker.send(task).expect("the thread waits for calls"));
    answer.recv().expect("the library returns")
}

/// Makes a command on what is lent, which comes back with the answer.
pub fn apply(mut lent: Lent, row: [u64; COMMAND_WORDS]) -> (Lent, sys::Answer) {
    beside(move || {
        let answer = lent.apply(&row);
        (lent, answer)
    })
}

/// Makes a job on what is lent, which comes back with the rows, the area and the answer.
pub fn job(mut lent: Lent, rows: Vec<u64>, mut area: Tables) -> (Lent, Vec<u64>, Tables, sys::JobAnswer) {
    beside(move || {
        let answer = lent.job(&rows, &mut area);
        (lent, rows, area, answer)
    })
}
