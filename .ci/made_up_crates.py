"""Made-up crates for the self-test of .ci/public-calls, and the page that it has to make of them, but for its head."""

ORDER = ('shop', 'shop::prices')
FOR_PROOFS = {'shop': {'Ledger'}}

COIN = '''/// A coin. Its value stays.
#[derive(Clone)]
pub struct Coin {
    /// in cents, as https://mint.example/values says
    pub value: u32,
    pub ghost past: {List},
    pub(crate) weight: u32,
    hidden: u8,
}

/// A side of a coin, as [`Coin`] has two.
/// # Examples
pub enum Side {
    Head, // not Edge
    Tail(u8),
}

impl Coin {
    pub const fn new(value: u32) -> Coin {
        Coin { value, weight: 1, hidden: 0 }
    }

    fn hidden(&self) {}

    // pub fn gone(&self) {}

    pub unsafe fn melt(self) {}
}

impl Clone for Coin {
    pub fn clone(&self) -> Coin {}
}

impl<T: Into<Coin>> From<T> for Side {
    pub fn from(coin: T) -> Side {}
}

/// What holds coins.
pub trait Purse<T>
where
    T: Copy,
{
    fn put(&mut self, coin: Coin);

    fn count(&self) -> usize {
        0
    }
}

/// Turns a coin.
pub fn spin(coin: &Coin) -> Side {
    Side::Head
}

/// Turns coins.
pub fn spin_each<F: Fn(&Coin) -> Side>(
    coins: &[Coin],
    times: usize, // of each coin
) -> Result<Side, Vec<Side>>
    ensures { times ≤ 7 }
{
}
'''

FILES = {
    'crates.txt': '# the lowest crate: of coins\ncoins:\nshop may_wait=1: coins\n',
    'crates/coins/src/lib.rt': '''mod coin;
pub mod kinds;

pub use coin::{Coin, Purse, Side, spin, spin_each};

/// How many coins a purse has
/// at most. See [Purse](coin::Purse).
pub const MOST: usize = 9;
''',
    'crates/coins/src/coin.rt': COIN,
    'crates/coins/src/kinds.rt': '''/// The kind of a coin.
pub struct Coin;

impl Coin {
    pub fn name(&self) -> &str {}
}
''',
    'crates/shop/src/lib.rt': '''pub mod prices;
mod roll;

pub use coins::kinds;
pub use coins::{
    Coin, MOST,
    Purse, Side as Face, spin_each,
};
pub use crate::roll::Ledger;
// pub use coins::spin;
pub use prices::Price;
''',
    'crates/shop/src/prices.rt': '''pub use super::roll::Roll;
pub use coins::Coin;

/// What a thing costs.
pub struct Price<T> {
    pub amount: T,
}

impl<T: Into<Vec<u8>>> Price<T> {
    pub fn of(mut amount: T, ghost past: List, more: impl Fn(T) -> T) -> Price<T>
    where
        T: Copy,
    {
    }
}
''',
    'crates/shop/src/roll.rt': '/// A roll of paper.\npub struct Roll;\n\n/// What was sold.\npub struct Ledger;\n',
}

PAGE = '''
## `shop`

- **`Coin`**: A coin. Has `value: u32`.
  - `new(value: u32) -> Coin`
  - `melt(self)`
- **`Face`**: A side of a coin, as `Coin` has two. Has `Head`, `Tail(u8)`.
- **`MOST`**: How many coins a purse has at most.
- **`Price`**: What a thing costs. Has `amount: T`.
  - `of(amount: T, more: impl Fn(T) -> T) -> Price<T>`
- **`Purse`**: What holds coins.
  - `put(&mut self, coin: Coin)`
  - `count(&self) -> usize`
- **`spin_each`**: Turns coins.
  - `spin_each(coins: &[Coin], times: usize) -> Result<Side, Vec<Side>>`

## `shop::prices`

- **`Roll`**: A roll of paper.

Also here: `Coin`, `Price`

## `shop::kinds`

- **`Coin`**: The kind of a coin.
  - `name(&self) -> &str`
'''
