//! The exchange: each call is one transaction, over the book of one stock and the accounts of all who trade.
use crate::funds;
use crate::market::{Market, Moment, Opening, Quote, StockMoment};
use crate::order::{Order, Placed, Refusal, Side, Ticket, MOST_PRICE};
use sto::{Array, Error, Failed, Halt, Stats, Stop, Store, TVar, Tree, Tx};

/// The orders that rest on one side of a stock: their keys order them as they are met, and each is packed into one word.
type Orders = Tree<u64, u64>;

const NUMBER_BITS: u32 = 40;

/// The key of an order: the one with the better price has the lesser key, and of one price the older one.
fn key_of(side: Side, price: i64, number: u64) -> u64 {
    let rank = match side {
        Side::Buy => MOST_PRICE - price,
        Side::Sell => price,
    };
    (rank as u64) << NUMBER_BITS | number
}

fn price_of(side: Side, key: u64) -> i64 {
    let rank = (key >> NUMBER_BITS) as i64;
    match side {
        Side::Buy => MOST_PRICE - rank,
        Side::Sell => rank,
    }
}

/// What a tree holds of an order beside its key.
#[derive(Clone, Copy)]
struct Resting {
    trader: usize,
    quantity: i64,
}

impl Resting {
    fn pack(self) -> u64 {
        (self.quantity as u64) << 32 | self.trader as u64
    }

    fn unpack(word: u64) -> Resting {
        Resting { trader: (word & 0xffff_ffff) as usize, quantity: (word >> 32) as i64 }
    }
}

#[derive(Clone, Copy)]
struct Stock {
    shares: Array<i64>,
    buys: Orders,
    sells: Orders,
    /// The number of the next order that rests.
    next: TVar<u64>,
}

impl Stock {
    fn orders(&self, side: Side) -> Orders {
        match side {
            Side::Buy => self.buys,
            Side::Sell => self.sells,
        }
    }
}

/// An exchange of transactions. A clone is the same exchange.
#[derive(Clone)]
pub struct Exchange {
    store: Store,
    cash: Array<i64>,
    stocks: Vec<Stock>,
    traders: usize,
}

impl Exchange {
    pub fn open(opening: Opening) -> Result<Exchange, Error> {
        let mut objects = Store::builder();
        let cash = objects.array(opening.traders, opening.cash);
        let mut stock = || Stock {
            shares: objects.array(opening.traders, opening.shares),
            buys: objects.tree(opening.room),
            sells: objects.tree(opening.room),
            next: objects.var(0),
        };
        let stocks = (0..opening.stocks).map(|_| stock()).collect();
        Ok(Exchange { store: objects.open()?, cash, stocks, traders: opening.traders })
    }

    /// What its transactions met so far.
    pub fn stats(&self) -> Stats {
        self.store.stats()
    }

    /// The accounts from which orders of a side take what they need.
    fn account(&self, stock: &Stock, side: Side) -> Array<i64> {
        match side {
            Side::Buy => self.cash,
            Side::Sell => stock.shares,
        }
    }

    fn take_needs(&self, tx: &mut Tx<'_>, stock: &Stock, order: &Order) -> Result<(), Halt<Refusal>> {
        let account = self.account(stock, order.side);
        if !funds::cover(account.get(tx, order.trader)?, order.needs()) {
            return Err(Halt::because(Refusal::NotCovered));
        }
        Ok(account.add(tx, order.trader, -order.needs())?)
    }

    /// Trades with the other side as long as prices meet, and returns how many shares are left.
    fn meet(&self, tx: &mut Tx<'_>, stock: &Stock, order: &Order) -> Result<i64, Stop> {
        let (side, orders) = (order.side.other(), stock.orders(order.side.other()));
        let mut left = order.quantity;
        while left > 0 {
            let (key, resting) = match first(tx, orders)? {
                Some(first) if order.crosses(price_of(side, first.0)) => first,
                _ => break,
            };
            let traded = left.min(resting.quantity);
            left -= traded;
            if traded < resting.quantity {
                orders.put(tx, key, Resting { quantity: resting.quantity - traded, ..resting }.pack())?;
            } else {
                orders.remove(tx, key)?;
            }
            self.settle(tx, stock, order, resting.trader, price_of(side, key), traded)?;
        }
        Ok(left)
    }

    /// Gives both traders what they get. What they give was taken as their orders were placed.
    fn settle(&self, tx: &mut Tx<'_>, stock: &Stock, order: &Order, other: usize, price: i64, traded: i64) -> Result<(), Stop> {
        let (buyer, seller) = match order.side {
            Side::Buy => (order.trader, other),
            Side::Sell => (other, order.trader),
        };
        stock.shares.add(tx, buyer, traded)?;
        self.cash.add(tx, seller, price * traded)?;
        if order.side == Side::Buy && price < order.price {
            self.cash.add(tx, buyer, (order.price - price) * traded)?;
        }
        Ok(())
    }

    fn rest(&self, tx: &mut Tx<'_>, stock: &Stock, order: &Order, left: i64) -> Result<Ticket, Halt<Refusal>> {
        let number = stock.next.get(tx)?;
        if number >> NUMBER_BITS > 0 {
            return Err(Halt::because(Refusal::NoRoom));
        }
        stock.next.set(tx, number + 1)?;
        let (key, resting) = (key_of(order.side, order.price, number), Resting { trader: order.trader, quantity: left });
        // (what was traded by then is undone with the rest)
        stock.orders(order.side).try_put(tx, key, resting.pack())?.map_err(|_| Halt::because(Refusal::NoRoom))?;
        Ok(Ticket { stock: order.stock, side: order.side, price: order.price, number })
    }

    fn look_at(&self, tx: &mut Tx<'_>, stock: &Stock) -> Result<StockMoment, Stop> {
        Ok(StockMoment {
            shares: values(tx, stock.shares, self.traders)?,
            buys: quotes(tx, stock, Side::Buy)?,
            sells: quotes(tx, stock, Side::Sell)?,
        })
    }
}

/// The order of a side that is met first.
fn first(tx: &mut Tx<'_>, orders: Orders) -> Result<Option<(u64, Resting)>, Stop> {
    match orders.next(tx, 0)? {
        None => Ok(None),
        Some(key) => Ok(orders.get(tx, key)?.map(|word| (key, Resting::unpack(word)))),
    }
}

fn values(tx: &mut Tx<'_>, array: Array<i64>, many: usize) -> Result<Vec<i64>, Stop> {
    (0..many).map(|at| array.get(tx, at)).collect()
}

fn quotes(tx: &mut Tx<'_>, stock: &Stock, side: Side) -> Result<Vec<Quote>, Stop> {
    let orders = stock.orders(side).range(tx, ..)?;
    let quote = |(key, word)| {
        let Resting { trader, quantity } = Resting::unpack(word);
        Quote { price: price_of(side, key), quantity, trader }
    };
    Ok(orders.into_iter().map(quote).collect())
}

impl Market for Exchange {
    fn place(&self, order: Order) -> Result<Placed, Failed<Refusal>> {
        order.check(self.stocks.len(), self.traders).map_err(Failed::Gave)?;
        let stock = &self.stocks[order.stock];
        self.store.try_atomically(|tx| {
            self.take_needs(tx, stock, &order)?;
            let left = self.meet(tx, stock, &order)?;
            let ticket = if left > 0 { Some(self.rest(tx, stock, &order, left)?) } else { None };
            Ok(Placed { traded: order.quantity - left, ticket })
        })
    }

    fn cancel(&self, ticket: Ticket, trader: usize) -> Result<i64, Failed<Refusal>> {
        let stock = self.stocks.get(ticket.stock).ok_or(Failed::Gave(Refusal::NoSuchStock))?;
        let (orders, key) = (stock.orders(ticket.side), key_of(ticket.side, ticket.price, ticket.number));
        self.store.try_atomically(|tx| {
            let resting = orders.get(tx, key)?.map(Resting::unpack).ok_or_else(|| Halt::because(Refusal::NotThere))?;
            if resting.trader != trader {
                return Err(Halt::because(Refusal::NotYours));
            }
            orders.remove(tx, key)?;
            let given_back = match ticket.side {
                Side::Buy => ticket.price * resting.quantity,
                Side::Sell => resting.quantity,
            };
            self.account(stock, ticket.side).add(tx, trader, given_back)?;
            Ok(resting.quantity)
        })
    }

    fn moment(&self) -> Result<Moment, Error> {
        self.store.atomically(|tx| {
            let cash = values(tx, self.cash, self.traders)?;
            let stocks = self.stocks.iter().map(|it| self.look_at(tx, it)).collect::<Result<_, _>>()?;
            Ok(Moment { cash, stocks })
        })
    }
}
