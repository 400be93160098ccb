// A stack over the Rust of docs/porting.md, on four threads: each number is popped once. tools/test_oa2c puts that Rust in place of the line PORTING.
use std::sync::atomic::{AtomicUsize, Ordering::SeqCst};

const BITS: u32 = 24; // of a head, those of the slot

#[repr(align(64))]
struct Own {
    warning: AtomicUsize,
    hazard: [AtomicUsize; 8],
}

struct Pool {
    phase: AtomicUsize,
    head: AtomicUsize,
    status: Vec<AtomicUsize>,
    link: Vec<AtomicUsize>,
    field: Vec<[AtomicUsize; 2]>, // value, next
    own: Vec<Own>,
    top: AtomicUsize,
}

impl Pool {
    // PORTING
}

impl Pool {
    fn open(slots: usize, callers: usize) -> Pool {
        let words = |word: usize| (0..=slots).map(move |_| AtomicUsize::new(word)).collect::<Vec<_>>();
        let pool = Pool {
            phase: AtomicUsize::new(1),
            head: AtomicUsize::new(1 << BITS),
            status: words(4),
            link: words(0),
            field: (0..=slots).map(|_| Default::default()).collect(),
            own: (0..callers).map(|_| Own { warning: AtomicUsize::new(1), hazard: Default::default() }).collect(),
            top: AtomicUsize::new(0),
        };
        for slot in (1..=slots).rev() {
            pool.push(slot, 1);
        }
        pool
    }

    fn clear(&self, me: usize) {
        self.own[me].hazard.iter().for_each(|hazard| hazard.store(0, SeqCst));
    }

    fn is_warned(&self, me: usize, seen: usize) -> bool {
        self.own[me].warning.load(SeqCst) != seen
    }

    fn put(&self, me: usize, cradle: &mut usize, value: usize) -> bool {
        let own = &self.own[me];
        loop {
            self.clear(me);
            let seen = own.warning.load(SeqCst);
            let old = self.top.load(SeqCst);
            if self.is_warned(me, seen) {
                continue;
            }
            let slot = match self.fresh(cradle) {
                Some(slot) => slot,
                None => return false,
            };
            if self.is_warned(me, seen) {
                continue;
            }
            self.field[slot][0].store(value, SeqCst);
            self.field[slot][1].store(old, SeqCst);
            own.hazard[0].store(old >> 1, SeqCst);
            own.hazard[1].store(slot, SeqCst);
            if !self.is_warned(me, seen) && self.top.compare_exchange(old, 2 * slot, SeqCst, SeqCst).is_ok() {
                *cradle = 0;
                self.clear(me);
                return true;
            }
        }
    }

    fn take(&self, me: usize) -> Option<usize> {
        let own = &self.own[me];
        loop {
            self.clear(me);
            let seen = own.warning.load(SeqCst);
            let old = self.top.load(SeqCst);
            if self.is_warned(me, seen) {
                continue;
            }
            if old == 0 {
                return None;
            }
            let next = self.field[old >> 1][1].load(SeqCst);
            let value = self.field[old >> 1][0].load(SeqCst);
            own.hazard[0].store(old >> 1, SeqCst);
            own.hazard[1].store(next >> 1, SeqCst);
            if !self.is_warned(me, seen) && self.top.compare_exchange(old, next, SeqCst, SeqCst).is_ok() {
                self.retire(old >> 1);
                self.clear(me);
                return Some(value);
            }
        }
    }
}

fn main() {
    let (pool, callers, calls) = (Pool::open(40, 4), 4, 10000);
    let mut taken: Vec<usize> = std::thread::scope(|scope| {
        let work = |me: usize| {
            let (pool, mut cradle, mut taken) = (&pool, 0, Vec::new());
            move || {
                for at in 0..calls {
                    while !pool.put(me, &mut cradle, at * callers + me) {
                        taken.extend(pool.take(me));
                    }
                    taken.extend(pool.take(me));
                }
                taken
            }
        };
        let running: Vec<_> = (0..callers).map(|me| scope.spawn(work(me))).collect();
        running.into_iter().flat_map(|thread| thread.join().unwrap()).collect()
    });
    taken.extend(std::iter::from_fn(|| pool.take(0)));
    taken.sort();
    println!("{}", if taken.into_iter().eq(0..callers * calls) { "right" } else { "wrong" });
}
