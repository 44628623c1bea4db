//! What all exchanges do, and what holds of them at each moment.
use crate::order::{Order, Placed, Refusal, Ticket};
use std::fmt;

/// With what an exchange opens.
#[derive(Clone, Copy, Debug)]
pub struct Opening {
    pub stocks: usize,
    pub traders: usize,
    /// What each trader has.
    pub cash: i64,
    /// How many shares of each stock each trader has.
    pub shares: i64,
    /// How many orders can rest on each side of a stock: some hundreds at most.
    pub room: usize,
}

/// An exchange, for any number of threads.
pub trait Market: Sync {
    /// Takes from the trader what the order needs, trades with the orders of the other side, those with the best price first and of
    /// these the oldest, as long as the prices meet, and lets what is left rest. Each trade is made at the price of the order that
    /// rested. A trader that meets its own order trades with itself.
    fn place(&self, order: Order) -> Result<Placed, sto::Failed<Refusal>>;

    /// Takes an order out of its book, gives back what it had taken, and answers how many shares were left.
    fn cancel(&self, ticket: Ticket, trader: usize) -> Result<i64, sto::Failed<Refusal>>;

    /// All of the exchange at one moment.
    fn moment(&self) -> Result<Moment, sto::Error>;
}

/// An order that rests.
#[derive(Clone, Copy, PartialEq, Eq, Debug)]
pub struct Quote {
    pub price: i64,
    pub quantity: i64,
    pub trader: usize,
}

/// A stock at one moment: the shares of each trader, and both sides of its book, each in the order in which it is met.
#[derive(Clone, PartialEq, Eq, Debug)]
pub struct StockMoment {
    pub shares: Vec<i64>,
    pub buys: Vec<Quote>,
    pub sells: Vec<Quote>,
}

/// An exchange at one moment: the cash of each trader, and the stocks.
#[derive(Clone, PartialEq, Eq, Debug)]
pub struct Moment {
    pub cash: Vec<i64>,
    pub stocks: Vec<StockMoment>,
}

/// What never holds.
#[derive(Clone, Copy, PartialEq, Eq, Debug)]
pub enum Fault {
    CashMadeOrLost,
    SharesMadeOrLost { stock: usize },
    BelowZero { trader: usize },
    Crossed { stock: usize },
}

impl fmt::Display for Fault {
    fn fmt(&self, f: &mut fmt::Formatter<'_>) -> fmt::Result {
        match self {
            Fault::CashMadeOrLost => write!(f, "cash was made or lost"),
            Fault::SharesMadeOrLost { stock } => write!(f, "shares of stock {stock} were made or lost"),
            Fault::BelowZero { trader } => write!(f, "trader {trader} has less than nothing"),
            Fault::Crossed { stock } => write!(f, "the best buy of stock {stock} is not below its best sell"),
        }
    }
}

impl std::error::Error for Fault {}

impl StockMoment {
    fn fault(&self, stock: usize, shares: i64) -> Option<Fault> {
        let resting: i64 = self.sells.iter().map(|it| it.quantity).sum();
        if self.shares.iter().sum::<i64>() + resting != shares {
            return Some(Fault::SharesMadeOrLost { stock });
        }
        if let Some(trader) = self.shares.iter().position(|it| *it < 0) {
            return Some(Fault::BelowZero { trader });
        }
        match (self.buys.first(), self.sells.first()) {
            (Some(buy), Some(sell)) if buy.price >= sell.price => Some(Fault::Crossed { stock }),
            _ => None,
        }
    }
}

impl Moment {
    /// What is wrong, if anything: cash and shares are kept, no account is below zero, no book is crossed. What an order took from its
    /// trader rests with it.
    pub fn fault(&self, opening: &Opening) -> Option<Fault> {
        let traders = self.cash.len() as i64;
        let resting: i64 = self.stocks.iter().flat_map(|it| &it.buys).map(|it| it.price * it.quantity).sum();
        if self.cash.iter().sum::<i64>() + resting != opening.cash * traders {
            return Some(Fault::CashMadeOrLost);
        }
        if let Some(trader) = self.cash.iter().position(|it| *it < 0) {
            return Some(Fault::BelowZero { trader });
        }
        self.stocks.iter().enumerate().find_map(|(stock, it)| it.fault(stock, opening.shares * traders))
    }
}
