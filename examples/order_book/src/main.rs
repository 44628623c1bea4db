//! order_book [THREADS [CALLS [RUNS]]]: trades at random, by transactions and over one lock, and says what each took.
use order_book::{trade, AnyError, Exchange, LockedExchange, Market, Opening};
use std::time::Instant;
use std::{env, process};

const OPENING: Opening = Opening { stocks: 4, traders: 64, cash: 100_000, shares: 1_000, room: 64 };

/// Over the lock so many times as many calls are made, so that both are measured for about as long, on a busy machine too.
const MORE: usize = 50;

struct Words {
    threads: usize,
    calls: usize,
    runs: usize,
}

fn words() -> Option<Words> {
    let given = env::args().skip(1).map(|it| it.parse().ok().filter(|it| *it > 0)).collect::<Option<Vec<usize>>>()?;
    let word = |at: usize, otherwise| given.get(at).copied().unwrap_or(otherwise);
    (given.len() <= 3).then_some(Words { threads: word(0, 4), calls: word(1, 20_000), runs: word(2, 3) })
}

/// How many calls a second are done.
fn rate_of<M: Market>(market: &M, threads: usize, calls: usize) -> Result<f64, AnyError> {
    let began = Instant::now();
    trade(market, &OPENING, threads, calls)?;
    Ok(calls as f64 / began.elapsed().as_secs_f64())
}

fn run(words: &Words) -> Result<(), AnyError> {
    let (mut ours, mut locked, mut tries) = (0.0, 0.0, 0.0);
    for _ in 0..words.runs {
        let exchange = Exchange::open(OPENING)?;
        let rate = rate_of(&exchange, words.threads, words.calls)?;
        if rate > ours {
            let stats = exchange.stats();
            (ours, tries) = (rate, stats.tries as f64 / (stats.commits + stats.given_up) as f64);
        }
        locked = rate_of(&LockedExchange::open(OPENING), words.threads, MORE * words.calls)?.max(locked);
    }
    println!("{} threads, best of {} runs, on the {:?} library", words.threads, words.runs, sto::build());
    println!("transactions: {ours:.0} calls a second, of {tries:.2} tries each");
    println!("one lock:     {locked:.0} calls a second, {:.0} times as many", locked / ours);
    println!("cash and shares are kept, no account is below zero, no book is crossed");
    Ok(())
}

fn main() {
    let status = match words() {
        None => {
            eprintln!("usage: order_book [THREADS [CALLS [RUNS]]]");
            2
        }
        Some(words) => match run(&words) {
            Ok(()) => 0,
            Err(error) => {
                eprintln!("order_book: {error}");
                1
            }
        },
    };
    process::exit(status)
}
