//! The check on which it stands that no account is below zero. A test compiles the exchange with another one, which lets all pass.

/// Whether an account that has so much can give what an order needs.
pub fn cover(has: i64, needs: i64) -> bool {
    has >= needs
}
