import sto

with sto.Store() as store:
    alice, bob = store.box(100), store.box(0)

    def pay(tx, amount):
        if alice[tx] < amount:
            tx.cancel()
        alice[tx] -= amount
        bob[tx] += amount
        return alice[tx]

    left = store.atomically(pay, 30)
    print(left, "left, on the", sto.build(), "library")
