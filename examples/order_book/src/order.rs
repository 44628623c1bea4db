//! What an exchange is told, and what it answers.
use std::fmt;

/// The highest price of a share, and the most shares of an order: what an order costs is then a number of 64 bits.
pub const MOST_PRICE: i64 = (1 << 24) - 1;
pub const MOST_QUANTITY: i64 = (1 << 32) - 1;

#[derive(Clone, Copy, PartialEq, Eq, Debug)]
pub enum Side {
    Buy,
    Sell,
}

impl Side {
    pub fn other(self) -> Side {
        match self {
            Side::Buy => Side::Sell,
            Side::Sell => Side::Buy,
        }
    }
}

/// A limit order: to buy at this price or below, or to sell at this price or above.
#[derive(Clone, Copy, PartialEq, Eq, Debug)]
pub struct Order {
    pub stock: usize,
    pub side: Side,
    pub trader: usize,
    pub price: i64,
    pub quantity: i64,
}

impl Order {
    /// Whether it meets an order of the other side that rests at a price.
    pub fn crosses(&self, price: i64) -> bool {
        match self.side {
            Side::Buy => price <= self.price,
            Side::Sell => price >= self.price,
        }
    }

    /// What it takes from its trader: cash for a purchase, shares for a sale.
    pub fn needs(&self) -> i64 {
        match self.side {
            Side::Buy => self.price * self.quantity,
            Side::Sell => self.quantity,
        }
    }

    /// Refuses an order that names what is not there, or has a number that is out of range.
    pub fn check(&self, stocks: usize, traders: usize) -> Result<(), Refusal> {
        if self.stock >= stocks {
            return Err(Refusal::NoSuchStock);
        }
        if self.trader >= traders {
            return Err(Refusal::NoSuchTrader);
        }
        if !(1..=MOST_PRICE).contains(&self.price) {
            return Err(Refusal::BadPrice);
        }
        if !(1..=MOST_QUANTITY).contains(&self.quantity) {
            return Err(Refusal::BadQuantity);
        }
        Ok(())
    }
}

/// An order that rests in a book, as its trader names it to cancel it.
#[derive(Clone, Copy, PartialEq, Eq, Debug)]
pub struct Ticket {
    pub(crate) stock: usize,
    pub(crate) side: Side,
    pub(crate) price: i64,
    pub(crate) number: u64,
}

/// What became of an order: how many shares were traded at once, and a ticket for the rest, where there is one.
#[derive(Clone, Copy, PartialEq, Eq, Debug)]
pub struct Placed {
    pub traded: i64,
    pub ticket: Option<Ticket>,
}

/// Why an order or a cancel was refused. Nothing of it was done.
#[derive(Clone, Copy, PartialEq, Eq, Debug)]
pub enum Refusal {
    NoSuchStock,
    NoSuchTrader,
    BadPrice,
    BadQuantity,
    /// The trader has not what the order needs.
    NotCovered,
    /// What is left of the order cannot rest, since the book is full.
    NoRoom,
    /// The order was traded or cancelled already.
    NotThere,
    /// The order is another trader's.
    NotYours,
}

impl fmt::Display for Refusal {
    fn fmt(&self, f: &mut fmt::Formatter<'_>) -> fmt::Result {
        f.write_str(match self {
            Refusal::NoSuchStock => "there is no such stock",
            Refusal::NoSuchTrader => "there is no such trader",
            Refusal::BadPrice => "the price is out of range",
            Refusal::BadQuantity => "the quantity is out of range",
            Refusal::NotCovered => "the trader has not what the order needs",
            Refusal::NoRoom => "the book is full",
            Refusal::NotThere => "the order was traded or cancelled already",
            Refusal::NotYours => "the order is another trader's",
        })
    }
}

impl std::error::Error for Refusal {}
