use order_book::{trade, Exchange, LockedExchange, Market, Opening, Order, Placed, Refusal, Side, MOST_PRICE, MOST_QUANTITY};
use sto::Failed::Gave;

const OPENING: Opening = Opening { stocks: 2, traders: 4, cash: 10_000, shares: 100, room: 8 };

fn sell(trader: usize, price: i64, quantity: i64) -> Order {
    Order { stock: 0, side: Side::Sell, trader, price, quantity }
}

fn buy(trader: usize, price: i64, quantity: i64) -> Order {
    Order { side: Side::Buy, ..sell(trader, price, quantity) }
}

fn see<M: Market>(market: &M) {
    assert_eq!(market.moment().unwrap().fault(&OPENING), None);
}

/// Both exchanges, since all of this holds of each.
fn on_both(check: impl Fn(&dyn Market)) {
    check(&Exchange::open(OPENING).unwrap());
    check(&LockedExchange::open(OPENING));
}

#[test]
fn the_better_price_is_met_first_and_then_the_older_order() {
    on_both(|market| {
        for (trader, price) in [(0, 101), (1, 100), (2, 100)] {
            assert_eq!(market.place(sell(trader, price, 10)).unwrap().traded, 0);
        }
        assert_eq!(market.place(buy(3, 101, 25)), Ok(Placed { traded: 25, ticket: None }));
        let now = market.moment().unwrap();
        assert_eq!(now.cash, [10_505, 11_000, 11_000, 7_495]);
        assert_eq!(now.stocks[0].shares, [90, 90, 90, 125]);
        assert_eq!(now.stocks[0].sells.iter().map(|it| (it.trader, it.quantity)).collect::<Vec<_>>(), [(0, 5)]);
        assert_eq!(now.fault(&OPENING), None);
    });
}

#[test]
fn a_sale_gets_the_price_of_the_one_who_waited() {
    on_both(|market| {
        market.place(buy(0, 105, 10)).unwrap();
        assert_eq!(market.place(sell(1, 100, 4)).unwrap().traded, 4);
        let now = market.moment().unwrap();
        assert_eq!((now.cash[0], now.cash[1]), (10_000 - 1_050, 10_420));
        assert_eq!(now.fault(&OPENING), None);
    });
}

#[test]
fn a_cancel_gives_back_what_is_left() {
    on_both(|market| {
        let ticket = market.place(buy(0, 50, 20)).unwrap().ticket.unwrap();
        market.place(sell(1, 50, 5)).unwrap();
        assert_eq!(market.cancel(ticket, 1), Err(Gave(Refusal::NotYours)));
        assert_eq!(market.cancel(ticket, 0), Ok(15));
        assert_eq!(market.cancel(ticket, 0), Err(Gave(Refusal::NotThere)));
        let now = market.moment().unwrap();
        assert_eq!((now.cash[0], now.stocks[0].shares[0]), (9_750, 105));
        assert_eq!(now.fault(&OPENING), None);
    });
}

#[test]
fn what_is_refused_does_nothing() {
    on_both(|market| {
        let before = market.moment().unwrap();
        for (order, why) in [
            (Order { stock: 2, ..buy(0, 1, 1) }, Refusal::NoSuchStock),
            (buy(4, 1, 1), Refusal::NoSuchTrader),
            (buy(0, 0, 1), Refusal::BadPrice),
            (buy(0, MOST_PRICE + 1, 1), Refusal::BadPrice),
            (buy(0, 1, 0), Refusal::BadQuantity),
            (sell(0, 1, MOST_QUANTITY + 1), Refusal::BadQuantity),
            (buy(0, 100, 101), Refusal::NotCovered),
            (buy(0, MOST_PRICE, MOST_QUANTITY), Refusal::NotCovered),
            (sell(0, 100, 101), Refusal::NotCovered),
        ] {
            assert_eq!(market.place(order), Err(Gave(why)));
        }
        assert_eq!(market.moment().unwrap(), before);
    });
}

#[test]
fn an_order_that_cannot_rest_is_undone_with_its_trades() {
    on_both(|market| {
        market.place(sell(0, 100, 10)).unwrap();
        for _ in 0..OPENING.room {
            market.place(buy(1, 10, 1)).unwrap();
        }
        let before = market.moment().unwrap();
        assert_eq!(market.place(buy(2, 100, 11)), Err(Gave(Refusal::NoRoom)));
        assert_eq!(market.moment().unwrap(), before);
        assert_eq!(market.place(buy(2, 100, 10)), Ok(Placed { traded: 10, ticket: None }));
    });
}

#[test]
fn a_trader_may_meet_its_own_order() {
    on_both(|market| {
        market.place(sell(0, 100, 10)).unwrap();
        assert_eq!(market.place(buy(0, 120, 10)).unwrap().traded, 10);
        let now = market.moment().unwrap();
        assert_eq!((now.cash[0], now.stocks[0].shares[0]), (10_000, 100));
    });
}

#[test]
fn at_the_ends_of_the_range_nothing_overflows() {
    let opening = Opening { stocks: 1, traders: 2, cash: MOST_PRICE * MOST_QUANTITY, shares: MOST_QUANTITY, room: 4 };
    let exchange = Exchange::open(opening).unwrap();
    exchange.place(buy(0, MOST_PRICE, MOST_QUANTITY)).unwrap();
    assert_eq!(exchange.place(sell(1, 1, MOST_QUANTITY)).unwrap().traded, MOST_QUANTITY);
    let now = exchange.moment().unwrap();
    assert_eq!((now.cash.as_slice(), now.stocks[0].shares.as_slice()), (&[0, 2 * opening.cash][..], &[2 * MOST_QUANTITY, 0][..]));
    assert_eq!(now.fault(&opening), None);
}

#[test]
fn on_one_thread_both_answer_the_same() {
    let opening = Opening { room: 16, ..OPENING };
    let (exchange, locked) = (Exchange::open(opening).unwrap(), LockedExchange::open(opening));
    assert_eq!(trade(&exchange, &opening, 1, 3_000).unwrap(), trade(&locked, &opening, 1, 3_000).unwrap());
    assert_eq!(exchange.moment().unwrap(), locked.moment().unwrap());
}

#[test]
fn on_threads_the_invariants_hold() {
    for threads in [2, 4] {
        let exchange = Exchange::open(OPENING).unwrap();
        assert!(trade(&exchange, &OPENING, threads, 4_000).unwrap().shares > 0);
        see(&exchange);
        let locked = LockedExchange::open(OPENING);
        trade(&locked, &OPENING, threads, 4_000).unwrap();
        see(&locked);
    }
}
