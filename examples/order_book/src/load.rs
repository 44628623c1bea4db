//! Orders and cancels at random, on threads, with a look at the whole now and then.
use crate::market::{Market, Opening};
use crate::order::{Order, Refusal, Side, Ticket};
use std::error::Error;
use std::thread;

/// What went wrong: a fault that a look found, or an error of the store.
pub type AnyError = Box<dyn Error + Send + Sync>;

/// How many shares changed hands, and how many orders and cancels were refused.
#[derive(Clone, Copy, PartialEq, Eq, Default, Debug)]
pub struct Traded {
    pub shares: i64,
    pub refused: usize,
}

/// Numbers at random (a linear congruence, of which the upper bits are taken), the same ones for one seed.
pub struct Random(pub u64);

impl Random {
    pub fn below(&mut self, bound: usize) -> usize {
        self.0 = self.0.wrapping_mul(6_364_136_223_846_793_005).wrapping_add(1_442_695_040_888_963_407);
        (self.0 >> 33) as usize % bound
    }

    pub fn order(&mut self, opening: &Opening) -> Order {
        let side = if self.below(2) == 0 { Side::Buy } else { Side::Sell };
        let price = 90 + self.below(21) as i64;
        let quantity = 1 + self.below(20) as i64;
        Order { stock: self.below(opening.stocks), side, trader: self.below(opening.traders), price, quantity }
    }
}

/// The answer of a call; None where it was refused, which is no fault.
fn answer<A>(result: Result<A, sto::Failed<Refusal>>) -> Result<Option<A>, AnyError> {
    match result {
        Ok(answer) => Ok(Some(answer)),
        Err(sto::Failed::Gave(_)) => Ok(None),
        Err(sto::Failed::Store(error)) => Err(error.into()),
    }
}

fn look<M: Market>(market: &M, opening: &Opening) -> Result<(), AnyError> {
    market.moment()?.fault(opening).map_or(Ok(()), |fault| Err(fault.into()))
}

fn trade_alone<M: Market>(market: &M, opening: &Opening, calls: usize, seed: u64) -> Result<Traded, AnyError> {
    let (mut random, mut traded) = (Random(seed), Traded::default());
    let mut resting: Vec<(Ticket, usize)> = Vec::new();
    for call in 1..=calls {
        let is_done = if random.below(5) < 2 && !resting.is_empty() {
            let (ticket, trader) = resting.swap_remove(random.below(resting.len()));
            answer(market.cancel(ticket, trader))?.is_some()
        } else {
            let order = random.order(opening);
            let placed = answer(market.place(order))?;
            if let Some(placed) = placed {
                traded.shares += placed.traded;
                resting.extend(placed.ticket.map(|ticket| (ticket, order.trader)));
            }
            placed.is_some()
        };
        traded.refused += usize::from(!is_done);
        if call % 512 == 0 {
            look(market, opening)?;
        }
    }
    Ok(traded)
}

/// Makes so many calls, shared by threads, and looks for faults on the way and at the end.
pub fn trade<M: Market>(market: &M, opening: &Opening, threads: usize, calls: usize) -> Result<Traded, AnyError> {
    let traded = thread::scope(|scope| {
        let start = |seed| scope.spawn(move || trade_alone(market, opening, calls / threads, seed));
        let started: Vec<_> = (1..=threads as u64).map(start).collect();
        started.into_iter().map(|it| it.join().unwrap_or_else(|_| Err("a thread panicked".into()))).collect::<Result<Vec<_>, _>>()
    })?;
    look(market, opening)?;
    Ok(traded.iter().fold(Traded::default(), |sum, it| Traded { shares: sum.shares + it.shares, refused: sum.refused + it.refused }))
}
