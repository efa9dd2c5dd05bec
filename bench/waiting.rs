// How threads wait for a lock that serves in the order of its tickets: an experiment in plain Rust, of which nothing is
// proved. It makes the steps of `hist_lock` on words of its own, round a loop in place of a call.
//
//   rustc -O -o waiting waiting.rs
//   ./waiting INSIDE OUTSIDE MILLISECONDS ROUNDS [CONNECTIONS..]
//
// N connections, each a pair of threads over a pair of sockets: one asks and waits for the answer, the other reads, does
// OUTSIDE rounds of a loop, takes a turn with INSIDE rounds, does OUTSIDE again, and answers. The ways are run by turns.
// A line each: calls a second, the part of the mutex's in the same round, processor time of both sides a call, and the
// wait for an answer: its median and its slowest hundredth. Each number is the median of the rounds. Before them, what a
// turn takes of the processor where one thread alone makes turns with nothing in them: the least of 40 times 250,000.
//
//   yield    each thread draws a ticket, then looks and yields until it is served (hist_lock as it was)
//   two      at most two have a ticket, the second looks 200 times and then sleeps (hist_lock as it is)
//   two+20, two+2000    the same with other numbers of looks
//   one      at most one has a ticket
//   four     at most four
//   mutex    std's Mutex alone
use std::io::{Read, Write};
use std::os::unix::net::UnixStream;
use std::sync::atomic::{AtomicBool, AtomicU64, Ordering::SeqCst};
use std::sync::{Arc, Mutex};
use std::time::{Duration, Instant};

#[derive(Clone, Copy, PartialEq)]
enum Way {
    Yield,
    Permits { most: u64, looks: u32 },
    Mutex,
}

const WAYS: [(&str, Way); 7] = [
    ("yield", Way::Yield),
    ("two", Way::Permits { most: 2, looks: 200 }),
    ("two+20", Way::Permits { most: 2, looks: 20 }),
    ("two+2000", Way::Permits { most: 2, looks: 2000 }),
    ("one", Way::Permits { most: 1, looks: 200 }),
    ("four", Way::Permits { most: 4, looks: 200 }),
    ("mutex", Way::Mutex),
];

const FUTEX: i64 = 202;
const WAIT_PRIVATE: i64 = 128;
const WAKE_PRIVATE: i64 = 129;

const THREAD_TIME: i32 = 3;

extern "C" {
    fn syscall(number: i64, ...) -> i64;
    fn clock_gettime(clock: i32, time: *mut [i64; 2]) -> i32;
}

// The processor time of this thread.
fn thread_nanoseconds() -> f64 {
    let mut time = [0i64; 2];
    unsafe { clock_gettime(THREAD_TIME, &mut time) };
    time[0] as f64 * 1e9 + time[1] as f64
}

fn park(word: &AtomicU64, seen: u64) {
    unsafe { syscall(FUTEX, word as *const AtomicU64, WAIT_PRIVATE, seen as u32, std::ptr::null::<u8>()) };
}

fn wake(word: &AtomicU64, count: i32) {
    unsafe { syscall(FUTEX, word as *const AtomicU64, WAKE_PRIVATE, count) };
}

fn work(rounds: u64) {
    let mut x = rounds | 1;
    for i in 0..rounds {
        x = std::hint::black_box(x.wrapping_mul(6364136223846793005).wrapping_add(i));
    }
}

#[derive(Default)]
struct Lock {
    ticket: AtomicU64,
    serving: AtomicU64,
    count: AtomicU64,
    acquired: AtomicU64,
    sleepers: AtomicU64,
    mutex: Mutex<()>,
}

impl Lock {
    fn acquire(&self, most: u64) {
        loop {
            let seen = self.acquired.load(SeqCst);
            if seen < most && self.acquired.compare_exchange(seen, seen + 1, SeqCst, SeqCst).is_ok() {
                return;
            }
            self.sleepers.fetch_add(1, SeqCst);
            park(&self.acquired, most);
            self.sleepers.fetch_sub(1, SeqCst);
        }
    }

    fn release(&self) {
        self.acquired.fetch_sub(1, SeqCst);
        if self.sleepers.load(SeqCst) > 0 {
            wake(&self.acquired, 1);
        }
    }

    fn enter(&self, mut pause: impl FnMut(u64)) {
        let ticket = self.ticket.fetch_add(1, SeqCst);
        loop {
            let serving = self.serving.load(SeqCst);
            if serving == ticket {
                self.count.load(SeqCst);
                return;
            }
            pause(serving);
        }
    }

    fn leave(&self) {
        self.count.fetch_add(1, SeqCst);
        self.serving.fetch_add(1, SeqCst);
    }

    fn turn(&self, way: Way, job: impl FnOnce()) {
        match way {
            Way::Mutex => {
                let _held = self.mutex.lock().unwrap();
                job();
            }
            Way::Yield => {
                self.enter(|_| std::thread::yield_now());
                job();
                self.leave();
            }
            Way::Permits { most, looks } => {
                let mut looked = 0;
                self.acquire(most);
                self.enter(|serving| {
                    if looked < looks {
                        looked += 1;
                        std::hint::spin_loop();
                    } else {
                        park(&self.serving, serving);
                    }
                });
                job();
                self.leave();
                if self.acquired.load(SeqCst) > 1 {
                    wake(&self.serving, if most > 2 { i32::MAX } else { 1 });
                }
                self.release();
            }
        }
    }
}

fn processor_seconds() -> f64 {
    let text = std::fs::read_to_string("/proc/self/stat").unwrap();
    let words: Vec<&str> = text[text.rfind(')').unwrap() + 2..].split(' ').collect();
    (words[11].parse::<f64>().unwrap() + words[12].parse::<f64>().unwrap()) / 100.0
}

fn serve(lock: &Lock, way: Way, mut stream: UnixStream, inside: u64, outside: u64) {
    let mut bytes = [0u8; 64];
    while stream.read(&mut bytes).unwrap_or(0) > 0 {
        work(outside);
        lock.turn(way, || work(inside));
        work(outside);
        if stream.write_all(&bytes).is_err() {
            return;
        }
    }
}

fn ask(stop: &AtomicBool, mut stream: UnixStream) -> Vec<f64> {
    let mut bytes = [7u8; 64];
    let mut waits = Vec::new();
    while !stop.load(SeqCst) {
        let began = Instant::now();
        stream.write_all(&bytes).unwrap();
        if stream.read(&mut bytes).unwrap() == 0 {
            break;
        }
        waits.push(began.elapsed().as_secs_f64() * 1e6);
    }
    waits
}

// Calls a second, processor time a call, the median wait, the slowest hundredth.
fn run(way: Way, connections: usize, inside: u64, outside: u64, time: Duration) -> [f64; 4] {
    let lock = Arc::new(Lock::default());
    let stop = Arc::new(AtomicBool::new(false));
    let spent = processor_seconds();
    let (mut servers, mut clients) = (Vec::new(), Vec::new());
    for _ in 0..connections {
        let (client, server) = UnixStream::pair().unwrap();
        let (lock, stop) = (lock.clone(), stop.clone());
        servers.push(std::thread::spawn(move || serve(&lock, way, server, inside, outside)));
        clients.push(std::thread::spawn(move || ask(&stop, client)));
    }
    let began = Instant::now();
    std::thread::sleep(time);
    stop.store(true, SeqCst);
    let mut waits: Vec<f64> = clients.into_iter().flat_map(|it| it.join().unwrap()).collect();
    let took = began.elapsed().as_secs_f64();
    for it in servers {
        it.join().unwrap();
    }
    let spent = processor_seconds() - spent;
    waits.sort_by(f64::total_cmp);
    let count = waits.len();
    [count as f64 / took, spent / count as f64 * 1e6, waits[count / 2], waits[count - 1 - count / 100]]
}

// Nanoseconds a turn, where nobody else makes one.
fn alone(way: Way) -> f64 {
    let lock = Lock::default();
    let mut least = f64::MAX;
    for _ in 0..40 {
        let began = thread_nanoseconds();
        for _ in 0..250_000 {
            lock.turn(way, || {
                std::hint::black_box(0);
            });
        }
        least = least.min((thread_nanoseconds() - began) / 250_000.0);
    }
    least
}

fn median(mut values: Vec<f64>) -> f64 {
    values.sort_by(f64::total_cmp);
    values[values.len() / 2]
}

fn main() {
    let words: Vec<u64> = std::env::args().skip(1).map(|it| it.parse().unwrap()).collect();
    let [inside, outside, time, rounds] = words[..4] else { panic!("INSIDE OUTSIDE MILLISECONDS ROUNDS") };
    let all = [1, 2, 4, 16, 64, 256];
    let counts = if words.len() > 4 { &words[4..] } else { &all[..] };
    for (name, way) in WAYS {
        println!("{name}: {:.1} ns a turn alone", alone(way));
    }
    println!("| connections | way | calls a second | by the mutex's | processor us a call | median us | slow us |");
    println!("|---|---|---|---|---|---|---|");
    for &connections in counts {
        let mut told = vec![Vec::new(); WAYS.len()];
        for _ in 0..rounds {
            for (k, (_, way)) in WAYS.iter().enumerate() {
                told[k].push(run(*way, connections as usize, inside, outside, Duration::from_millis(time)));
            }
        }
        for (k, (name, _)) in WAYS.iter().enumerate() {
            let of = |at: usize| median(told[k].iter().map(|it| it[at]).collect());
            let ratio = median(told[k].iter().zip(&told[WAYS.len() - 1]).map(|(a, b)| a[0] / b[0]).collect());
            println!(
                "| {connections} | {name} | {:.0} | {ratio:.2} | {:.1} | {:.0} | {:.0} |",
                of(0), of(1), of(2), of(3)
            );
        }
    }
}
