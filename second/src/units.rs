//! The units of document 01: "Prices are in fen, positions in lots and rates in
//! thousandths of a percent." Three types, so that none is taken for another.

/// A price, 1 to 9,999,999, in the unit of its book: fen where prices have two decimals, yuan
/// where they have none. All prices of a book are in one unit, and none leaves its book.
#[derive(Clone, Copy, Debug, PartialEq, Eq)]
pub struct Price(pub u32);

/// Request [3]: "how many decimals every price in the book has".
#[derive(Clone, Copy, Debug, PartialEq, Eq)]
pub enum Decimals {
    None,
    Two,
}

/// A position, an order or a trade in lots, up to 1,000,000; summed up over four seats up to 4,000,000.
#[derive(Clone, Copy, Debug, PartialEq, Eq, PartialOrd, Ord)]
pub struct Lots(pub u32);

/// A rate in thousandths of a percent, 1 to 99,999.
#[derive(Clone, Copy, Debug, PartialEq, Eq, PartialOrd, Ord)]
pub struct Rate(pub u32);

/// A side of the market. It names the side of a holding, and of the trade that
/// opened it: bought to open is long, sold to open is short.
#[derive(Clone, Copy, Debug, PartialEq, Eq)]
pub enum Side {
    Long,
    Short,
}
