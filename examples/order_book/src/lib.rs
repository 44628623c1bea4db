//! An exchange for several stocks: limit orders that meet one another, cancels, and the accounts of traders.
//!
//! [`Exchange`] does each call as one transaction, [`LockedExchange`] does the same over one lock. Of both it holds at each moment
//! that cash and shares are neither made nor lost, that no account is below zero, and that no book is crossed: [`Moment::fault`]
//! looks for it.
//!
//! ```
//! use order_book::{Exchange, Market, Opening, Order, Side};
//!
//! let exchange = Exchange::open(Opening { stocks: 2, traders: 3, cash: 10_000, shares: 100, room: 64 })?;
//! let sold = exchange.place(Order { stock: 1, side: Side::Sell, trader: 0, price: 100, quantity: 10 })?;
//! let bought = exchange.place(Order { stock: 1, side: Side::Buy, trader: 2, price: 105, quantity: 4 })?;
//! assert_eq!((sold.traded, bought.traded), (0, 4));
//! let left = exchange.cancel(sold.ticket.expect("it rests"), 0)?;
//! assert_eq!(left, 6);
//! assert_eq!(exchange.moment()?.cash, [10_400, 10_000, 9_600]);
//! # Ok::<(), Box<dyn std::error::Error>>(())
//! ```
mod exchange;
mod funds;
mod load;
mod locked;
mod market;
mod order;

pub use exchange::Exchange;
pub use load::{trade, AnyError, Traded};
pub use locked::LockedExchange;
pub use market::{Fault, Market, Moment, Opening, Quote, StockMoment};
pub use order::{Order, Placed, Refusal, Side, Ticket, MOST_PRICE, MOST_QUANTITY};
