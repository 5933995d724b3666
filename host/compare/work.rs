//! Pieces of work on all processors, under a watch.
use std::collections::BTreeMap;
use std::process::exit;
use std::sync::atomic::{AtomicU64, Ordering::Relaxed};
use std::sync::Mutex;
use std::time::{Duration, Instant};

/// No call may take longer.
const LIMIT: Duration = Duration::from_secs(5);

pub type Counts<K> = BTreeMap<K, u64>;

/// When the current call of a thread began, in milliseconds and one, and which it is.
pub struct Watched {
    start: Instant,
    since: AtomicU64,
    piece: AtomicU64,
    call: AtomicU64,
}

impl Watched {
    pub fn new(start: Instant) -> Watched {
        Watched { start, since: AtomicU64::new(0), piece: AtomicU64::new(0), call: AtomicU64::new(0) }
    }

    fn now(&self) -> u64 {
        self.start.elapsed().as_millis() as u64 + 1
    }

    pub fn begins(&self, call: u64) {
        self.call.store(call, Relaxed);
        self.since.store(self.now(), Relaxed);
    }

    pub fn ends(&self) {
        self.since.store(0, Relaxed);
    }

    /// The call that takes too long, and its piece.
    fn late(&self) -> Option<(u64, u64)> {
        let since = self.since.load(Relaxed);
        let is_late = since != 0 && self.now().saturating_sub(since) > LIMIT.as_millis() as u64;
        is_late.then(|| (self.piece.load(Relaxed), self.call.load(Relaxed)))
    }
}

/// Does the pieces, and adds up what each counts, or gives the text of a failure. A call that takes too long ends the program;
/// `repeat` says how to do a call of a piece again.
pub fn in_pieces<K: Ord + Send>(
    pieces: u64,
    work: impl Fn(u64, &Watched) -> Result<Counts<K>, String> + Sync,
    repeat: impl Fn(u64, u64) -> String,
) -> Result<Counts<K>, String> {
    let start = Instant::now();
    let processors = std::thread::available_parallelism().map_or(1, |n| n.get());
    let watched: Vec<Watched> = (0..processors).map(|_| Watched::new(start)).collect();
    let next = AtomicU64::new(0);
    let total = Mutex::new(Ok(Counts::new()));
    let by_one = |watched: &Watched| loop {
        let piece = next.fetch_add(1, Relaxed);
        if piece >= pieces {
            break;
        }
        watched.piece.store(piece, Relaxed);
        let counts = work(piece, watched);
        watched.ends();
        if !add(&mut total.lock().unwrap(), counts) {
            break;
        }
    };
    std::thread::scope(|scope| {
        let threads: Vec<_> = watched.iter().map(|watched| scope.spawn(move || by_one(watched))).collect();
        while !threads.iter().all(|thread| thread.is_finished()) {
            std::thread::sleep(Duration::from_millis(100));
            if let Some((piece, call)) = watched.iter().find_map(Watched::late) {
                fail(&format!("a call takes over {} seconds\nrepeat: {}", LIMIT.as_secs(), repeat(piece, call)));
            }
            // there is nothing left, or something failed
            if threads.iter().any(|thread| thread.is_finished()) {
                next.store(pieces, Relaxed);
            }
        }
    });
    total.into_inner().unwrap()
}

/// Adds up, up to the first failure; whether to go on.
fn add<K: Ord>(total: &mut Result<Counts<K>, String>, counts: Result<Counts<K>, String>) -> bool {
    match (total, counts) {
        (Ok(total), Ok(counts)) => {
            counts.into_iter().for_each(|(key, count)| *total.entry(key).or_default() += count);
            true
        }
        (Err(_), _) => false,
        (total, Err(text)) => {
            *total = Err(text);
            false
        }
    }
}

pub fn fail(text: &str) -> ! {
    println!("{text}");
    exit(1)
}
