fn main() -> Result<(), sto::Error> {
    let mut objects = sto::Store::builder();
    let (alice, bob) = (objects.var(100i64), objects.var(0i64));
    let store = objects.open()?;
    let left = store.atomically(|tx| {
        let has = alice.get(tx)?;
        if has < 30 {
            return tx.cancel();
        }
        alice.set(tx, has - 30)?;
        bob.update(tx, |it| it + 30)?;
        Ok(has - 30)
    })?;
    println!("{left} left, on the {:?} library", sto::build());
    Ok(())
}
