//! Work on a row of items by some threads; the results come in the row's order.

use std::collections::BTreeMap;
use std::io;
use std::panic::{self, AssertUnwindSafe};
use std::sync::mpsc::{self, Receiver, RecvTimeoutError, Sender};
use std::sync::{Arc, Condvar, Mutex, MutexGuard, PoisonError};
use std::thread;
use std::time::Duration;

/// How far the threads may be ahead of the first result that is not given, each: what they have
/// done meanwhile is held.
const AHEAD: usize = 8;

pub struct Jobs<R> {
    row: Arc<Row>,
    results: Receiver<(usize, thread::Result<R>)>,
    held: BTreeMap<usize, thread::Result<R>>,
}

/// What is known of the next result.
pub enum Next<R> {
    Done(R),
    Waiting,
    Over,
}

struct Row {
    total: usize,
    ahead: usize,
    places: Mutex<Places>,
    moved: Condvar,
}

struct Places {
    taken: usize,
    given: usize,
}

impl Row {
    fn places(&self) -> MutexGuard<'_, Places> {
        self.places.lock().unwrap_or_else(PoisonError::into_inner)
    }

    /// The next item to work on; none if there are no more.
    fn take(&self) -> Option<usize> {
        let wait = |places: &mut Places| {
            places.taken < self.total && places.taken >= places.given + self.ahead
        };
        let waited = self.moved.wait_while(self.places(), wait);
        let mut places = waited.unwrap_or_else(PoisonError::into_inner);
        let item = (places.taken < self.total).then_some(places.taken);
        places.taken += usize::from(item.is_some());
        item
    }
}

impl<R: Send + 'static> Jobs<R> {
    /// Begins the work on so many items; it is told its thread's number and the item's. Fewer threads
    /// do where the system has no more, but one there must be.
    pub fn begin<W>(total: usize, threads: usize, work: W) -> io::Result<Jobs<R>>
    where
        W: Fn(usize, usize) -> R + Send + Sync + 'static,
    {
        let places = Mutex::new(Places { taken: 0, given: 0 });
        let row = Arc::new(Row {
            total,
            ahead: threads * AHEAD,
            places,
            moved: Condvar::new(),
        });
        let work = Arc::new(work);
        let (sender, results) = mpsc::channel();
        for number in 0..threads {
            let (row, work, sender) = (row.clone(), work.clone(), sender.clone());
            let thread = move || works(&row, &sender, |item| work(number, item));
            match thread::Builder::new().spawn(thread) {
                Err(error) if number == 0 => return Err(error),
                Err(_) => break,
                Ok(_) => {}
            }
        }
        let held = BTreeMap::new();
        Ok(Jobs { row, results, held })
    }

    /// The next result of the row, if it is there within this time. A thread's panic is passed on.
    pub fn next(&mut self, within: Duration) -> Next<R> {
        let given = self.row.places().given;
        if given == self.row.total {
            return Next::Over;
        }
        while !self.held.contains_key(&given) {
            match self.results.recv_timeout(within) {
                Ok((item, result)) => self.held.insert(item, result),
                Err(RecvTimeoutError::Timeout) => return Next::Waiting,
                Err(RecvTimeoutError::Disconnected) => return Next::Over,
            };
        }
        self.row.places().given += 1;
        self.row.moved.notify_all();
        match self.held.remove(&given) {
            Some(Ok(result)) => Next::Done(result),
            Some(Err(panicked)) => panic::resume_unwind(panicked),
            None => Next::Waiting,
        }
    }

    /// The item whose result is next.
    pub fn waited_for(&self) -> usize {
        self.row.places().given
    }
}

fn works<R>(row: &Row, sender: &Sender<(usize, thread::Result<R>)>, work: impl Fn(usize) -> R) {
    while let Some(item) = row.take() {
        let result = panic::catch_unwind(AssertUnwindSafe(|| work(item)));
        if sender.send((item, result)).is_err() {
            return;
        }
    }
}

impl<R> Drop for Jobs<R> {
    /// No thread begins anything more.
    fn drop(&mut self) {
        self.row.places().taken = self.row.total;
        self.row.moved.notify_all();
    }
}

#[cfg(test)]
mod tests {
    use super::{AHEAD, Jobs, Next};
    use std::panic;
    use std::sync::Arc;
    use std::sync::atomic::{AtomicUsize, Ordering};
    use std::thread::sleep;
    use std::time::Duration;

    const LONG: Duration = Duration::from_secs(60);

    fn begun(
        total: usize,
        threads: usize,
        work: impl Fn(usize, usize) -> usize + Send + Sync + 'static,
    ) -> Jobs<usize> {
        Jobs::begin(total, threads, work).expect("there are threads")
    }

    fn all(jobs: &mut Jobs<usize>) -> Vec<usize> {
        let mut results = Vec::new();
        while let Next::Done(result) = jobs.next(LONG) {
            results.push(result);
        }
        results
    }

    #[test]
    fn results_come_in_order_though_the_first_takes_longest() {
        for threads in [1, 2, 7] {
            let mut jobs = begun(100, threads, |_, item| {
                sleep(Duration::from_millis(if item == 0 { 50 } else { 0 }));
                item
            });
            assert_eq!(all(&mut jobs), Vec::from_iter(0..100));
            assert!(matches!(jobs.next(LONG), Next::Over));
        }
        assert_eq!(all(&mut begun(0, 2, |_, item| item)), []);
    }

    #[test]
    fn what_is_done_and_not_given_is_bounded() {
        let done = Arc::new(AtomicUsize::new(0));
        let counted = done.clone();
        let mut jobs = begun(1000, 2, move |_, item| {
            counted.fetch_add(1, Ordering::SeqCst);
            item
        });
        sleep(Duration::from_millis(100));
        assert_eq!(done.load(Ordering::SeqCst), 2 * AHEAD);
        assert_eq!(all(&mut jobs).len(), 1000);
    }

    #[test]
    fn a_panic_is_passed_on() {
        let mut jobs = begun(9, 2, |_, item| {
            assert_ne!(item, 5, "the fifth");
            item
        });
        let passed = panic::catch_unwind(panic::AssertUnwindSafe(|| all(&mut jobs)));
        assert!(passed.is_err());
    }
}
