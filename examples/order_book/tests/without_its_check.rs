//! The exchange compiled once more, with one check taken out: what an order needs is taken whether it is there or not. Then a trader has
//! less than nothing, and the look at the whole finds it.
#![allow(dead_code)]

#[path = "../src/exchange.rs"]
mod exchange;
#[path = "../src/load.rs"]
mod load;
#[path = "../src/market.rs"]
mod market;
#[path = "../src/order.rs"]
mod order;

/// In place of `src/funds.rs`.
mod funds {
    pub fn cover(_has: i64, _needs: i64) -> bool {
        true
    }
}

use exchange::Exchange;
use market::{Fault, Market, Opening};
use order::{Order, Side};

const OPENING: Opening = Opening { stocks: 1, traders: 4, cash: 1_000, shares: 100, room: 64 };

#[test]
fn one_order_breaks_the_invariant() {
    let exchange = Exchange::open(OPENING).unwrap();
    exchange.place(Order { stock: 0, side: Side::Buy, trader: 2, price: 100, quantity: 11 }).unwrap();
    assert_eq!(exchange.moment().unwrap().fault(&OPENING), Some(Fault::BelowZero { trader: 2 }));
}

#[test]
fn orders_on_threads_break_it_and_the_look_sees_it() {
    let exchange = Exchange::open(OPENING).unwrap();
    let wrong = load::trade(&exchange, &OPENING, 4, 4_000).unwrap_err();
    let fault = wrong.downcast_ref::<Fault>().copied();
    assert!(matches!(fault, Some(Fault::BelowZero { .. })), "{wrong}");
}
