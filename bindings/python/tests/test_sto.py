import os
import random
import re
import signal
import sys
import threading
import time
import unittest

import sto

TRANSACTIONS = int(os.environ.get("STO_TRANSACTIONS", 4000))


def threads(many, code):
    failed = []

    def run(number):
        try:
            code(number)
        except BaseException as error:  # told below
            failed.append(error)

    every = [threading.Thread(target=run, args=(number,)) for number in range(many)]
    for it in every:
        it.start()
    for it in every:
        it.join()
    if failed:
        raise failed[0]


class Tests(unittest.TestCase):
    def test_transfers_keep_the_sum(self):
        for many in (1, 2, 4):
            store = sto.Store(workers=many + 1)
            moves = store.counter()
            boxes = [store.box(100) for _ in range(8)]

            def move(tx, a, b):
                boxes[a][tx] -= 1
                boxes[b][tx] += 1
                moves.add(tx)

            def work(number):
                rand = random.Random(number)
                for i in range(300):
                    store.atomically(move, rand.randrange(8), rand.randrange(8))
                    if i % 50 == 0:
                        seen = store.snapshot(*boxes)
                        self.assertEqual(sum(seen.values()), 800)

            threads(many, work)
            stats = store.stats()
            self.assertEqual(stats.commits, many * 306)
            self.assertEqual(stats.tries, stats.commits + stats.aborts_in_calls + stats.aborts_at_commit)
            end = store.close()
            self.assertEqual(sum(end[it] for it in boxes), 800)
            self.assertEqual(end[moves], many * 300)

    def test_threads_come_and_go(self):
        with sto.Store(workers=5) as store:
            count = store.counter()
            for _ in range(100):
                threads(4, lambda _: store.atomically(lambda tx: count.add(tx)))
            self.assertEqual(store.atomically(lambda tx: count[tx]), 400)

    def test_numbers_are_checked(self):
        with sto.Store() as store:
            box, count, row = store.box(), store.counter(2**63 - 1), store.array(3, 7)
            few, tree, vector = store.table(1), store.tree(8), store.vector(1)
            with self.assertRaises(OverflowError):
                store.box(2**63)

            def set_to(tx, value):
                box[tx] = value

            for wrong, error in ((2**64 + 5, OverflowError), (-(2**63) - 1, OverflowError), (1.5, TypeError), ("1", TypeError)):
                with self.assertRaises(error):
                    store.atomically(set_to, wrong)
            store.atomically(set_to, -(2**63))
            self.assertEqual(store.atomically(lambda tx: box[tx]), -(2**63))
            with self.assertRaises(OverflowError):
                store.atomically(lambda tx: count.add(tx, 1))
            for at in (3, -1, 2**40):
                with self.assertRaises(IndexError):
                    store.atomically(lambda tx: row[tx, at])
            with self.assertRaises(KeyError):
                store.atomically(lambda tx: few[tx, 5])
            with self.assertRaises(IndexError):
                store.atomically(lambda tx: vector.pop(tx))

            def fill(tx):
                for key in range(17):
                    few[tx, key] = key

            with self.assertRaises(sto.Full):
                store.atomically(fill)
            self.assertEqual(store.atomically(few.len), 0)

            def order(tx):
                for key in (5, 1, 3):
                    tree[tx, key] = key * 10
                return tree.items(tx, low=2), tree.items(tx, limit=1), tree.items(tx, 2, 2, limit=5), tree.next(tx, 4), tree.count(tx, 0, 3), tree.discard(tx, 9)

            self.assertEqual(store.atomically(order), ([(3, 30), (5, 50)], [(1, 10)], [], 5, 2, False))
            self.assertEqual(store.atomically(lambda tx: tree.items(tx, 0, 4, limit=9)), [(1, 10), (3, 30)])
            with self.assertRaises(ValueError):
                store.atomically(lambda tx: tree.items(tx, limit=-1))
            with self.assertRaises(RuntimeError):
                store.box(1)

    def test_a_swallowed_abort_is_tried_again(self):
        with sto.Store() as store:
            x, y = store.box(0), store.box(0)
            runs = []

            def both(tx):
                x[tx] += 1
                y[tx] += 1

            def code(tx):
                try:
                    a = x[tx]
                except BaseException:
                    a = -1
                if not runs:
                    threads(1, lambda _: store.atomically(both))
                try:
                    b = y[tx]
                except BaseException:
                    b = -1
                runs.append((a, b))
                try:
                    x[tx] = a + 1
                except BaseException:
                    pass
                return a, b

            self.assertEqual(store.atomically(code), (1, 1))
            self.assertEqual(runs, [(0, -1), (1, 1)])

    def test_an_exception_gives_up(self):
        with sto.Store(workers=1) as store:
            box = store.box(5)

            def code(tx):
                box[tx] = 9
                raise ValueError("mine")

            for _ in range(50):
                with self.assertRaises(ValueError):
                    store.atomically(code)
            self.assertEqual(store.atomically(lambda tx: box[tx]), 5)
            self.assertIsNone(store.atomically(lambda tx: tx.cancel()))

    def test_wrong_use_is_told(self):
        store = sto.Store()
        other = sto.Store()
        box, foreign = store.box(5), other.box(6)
        kept = []
        store.atomically(kept.append)
        with self.assertRaisesRegex(sto.WrongUse, "has ended"):
            box[kept[0]]

        def stale(tx):
            box[kept[0]] = 7

        with self.assertRaises(RuntimeError):
            store.atomically(stale)
        with self.assertRaises(ValueError):
            store.atomically(lambda tx: foreign[tx])
        with self.assertRaises(sto.NestedTransaction):
            store.atomically(lambda tx: store.atomically(lambda t: box[t]))

        def elsewhere(tx):
            threads(1, lambda _: box[tx])

        with self.assertRaisesRegex(sto.WrongUse, "another thread"):
            store.atomically(elsewhere)
        with self.assertRaises(sto.Busy):
            store.atomically(lambda tx: store.close())
        self.assertEqual(store.atomically(lambda tx: box[tx]), 5)
        self.assertEqual(store.close()[box], 5)
        with self.assertRaises(sto.WrongUse):
            store.atomically(lambda tx: box[tx])
        with self.assertRaises(ValueError):
            sto.Store(workers=0)

    def test_waiting(self):
        with sto.Store() as store:
            queue = store.vector(2)
            taken = []

            def push(tx, value):
                try:
                    queue.push(tx, value)
                except sto.Full:
                    tx.retry()

            def pop(tx):
                if queue.len(tx) == 0:
                    tx.retry()
                return queue.pop(tx)

            def work(number):
                for i in range(50):
                    if number % 2:
                        store.atomically(push, number * 100 + i)
                    else:
                        taken.append(store.atomically(pop))

            threads(4, work)
            self.assertEqual(sorted(taken), sorted(n * 100 + i for n in (1, 3) for i in range(50)))
            began = time.monotonic()
            with self.assertRaises(TimeoutError):
                store.atomically(pop, timeout=0.05)
            self.assertGreaterEqual(time.monotonic() - began, 0.05)

    def test_interrupts_leave_nothing_open(self):
        """Interrupts at random moments, beside a thread that is not interrupted: no worker is lost, the sum holds, the store closes."""
        store = sto.Store(workers=2)
        boxes = [store.box(100) for _ in range(8)]
        rand, ends, beside = random.Random(7), [], []
        old = signal.signal(signal.SIGALRM, signal.default_int_handler)

        def move(tx, a, b):
            boxes[a][tx] -= 1
            boxes[b][tx] += 1

        def work(_):
            own = random.Random(8)
            while not ends:
                store.atomically(move, own.randrange(8), own.randrange(8))
                beside.append(1)

        def interrupted():
            try:
                signal.setitimer(signal.ITIMER_REAL, 0.00005 + rand.random() * 0.0006)
                for _ in range(1000):
                    store.atomically(move, rand.randrange(8), rand.randrange(8))
                signal.setitimer(signal.ITIMER_REAL, 0)
                return 0
            except KeyboardInterrupt:
                return 1

        thread = threading.Thread(target=work, args=(0,))
        thread.start()
        interrupts = 0
        while store.stats().commits < TRANSACTIONS:
            interrupts += interrupted()
        signal.signal(signal.SIGALRM, old)
        ends.append(True)
        thread.join()
        self.assertEqual(sum(store.snapshot(*boxes).values()), 800)
        self.assertTrue(all(it.owner is None and it.tx is None for it in store._workers))
        stats = store.stats()
        end = store.close()
        self.assertEqual(sum(end[it] for it in boxes), 800)
        print(f"{stats.commits} transactions, {len(beside)} of them beside, {interrupts} interrupts")

    def test_an_interrupt_at_each_function_leaves_nothing_open(self):
        """An interrupt as the n-th function of the door is entered, or a builtin one left, for each n; also where a transaction is given up."""

        def raise_at(left):
            def profile(frame, event, _):
                nonlocal left
                if event in ("call", "c_return") and os.path.dirname(frame.f_code.co_filename) == os.path.dirname(sto.__file__):
                    left -= 1
                    if left == 0:
                        raise KeyboardInterrupt
            return profile

        def give_up(tx):
            box[tx] += 1
            raise ValueError

        for function in (lambda tx: box.__setitem__(tx, 1), give_up):
            is_whole, left = False, 0
            while not is_whole:
                left += 1
                store = sto.Store(workers=1)
                box = store.box()
                store.atomically(box.__getitem__)
                try:
                    sys.setprofile(raise_at(left))
                    store.atomically(function)
                    is_whole = True
                except ValueError:
                    is_whole = True
                except KeyboardInterrupt:
                    pass
                finally:
                    sys.setprofile(None)
                threads(1, lambda _: store.atomically(box.__getitem__, timeout=5))
                self.assertIn(store.close()[box], (0, 1) if function is not give_up else (0,))
            self.assertGreater(left, 10)

    def test_a_wait_can_be_interrupted(self):
        store = sto.Store()
        box = store.box(0)
        old = signal.signal(signal.SIGALRM, signal.default_int_handler)
        try:
            with self.assertRaises(KeyboardInterrupt):
                signal.setitimer(signal.ITIMER_REAL, 0.05)
                store.atomically(lambda tx: tx.retry() if box[tx] == 0 else None)
        finally:
            signal.signal(signal.SIGALRM, old)
        self.assertEqual(store.close()[box], 0)

    def test_an_interrupted_close_can_be_called_again(self):
        rand = random.Random(9)
        old = signal.signal(signal.SIGALRM, signal.default_int_handler)
        for _ in range(100):
            store = sto.Store(workers=4)
            box = store.box(5)
            store.atomically(lambda tx: box[tx])
            end = None
            while end is None:
                try:
                    signal.setitimer(signal.ITIMER_REAL, 0.00002 + rand.random() * 0.0002)
                    end = store.close()
                    signal.setitimer(signal.ITIMER_REAL, 0)
                except KeyboardInterrupt:
                    if store._state == "closed":
                        break
            signal.setitimer(signal.ITIMER_REAL, 0)
            if end is not None:
                self.assertEqual(end[box], 5)
        signal.signal(signal.SIGALRM, old)

    def test_a_store_does_not_go_into_a_forked_process(self):
        store = sto.Store()
        box = store.box(5)
        store.atomically(lambda tx: box[tx])
        child = os.fork()
        if child == 0:
            told = 0
            for use in (lambda: store.atomically(lambda tx: box[tx]), store.close):
                try:
                    use()
                except sto.WrongUse:
                    told += 1
            os._exit(told != 2)
        self.assertEqual(os.waitpid(child, 0)[1], 0)
        self.assertEqual(store.close()[box], 5)

    def test_more_threads_than_workers_wait_for_one_another(self):
        with sto.Store(workers=2) as store:
            count = store.counter()
            threads(8, lambda _: [store.atomically(count.add) for _ in range(50)])
            self.assertEqual(store.atomically(lambda tx: count[tx]), 400)

    def test_the_programs_of_the_pages(self):
        top = os.path.join(os.path.dirname(os.path.abspath(__file__)), "..")
        pages = [it for it in (f"{top}/README.md", f"{top}/../../docs/python.md") if os.path.exists(it)]
        for page in pages:
            with open(page, encoding="utf-8") as file:
                programs = re.findall(r"(?ms)^```python\n(.*?)^```", file.read())
            names = {"print": lambda *told: None}
            for program in programs:
                exec(program, names)
            self.assertTrue(programs)

    def test_the_library_tells_what_it_is(self):
        self.assertIn(sto.build(), ("plain", "proved"))
        self.assertTrue(sto.sources())

    def test_a_long_one_gets_through_alone(self):
        store = sto.Store()
        boxes = [store.box(0) for _ in range(16)]
        stop = []

        def audit(tx):
            total = 0
            for it in boxes:
                total += it[tx]
                time.sleep(0.0002)
            return total

        def move(tx, a, b):
            boxes[a][tx] -= 1
            boxes[b][tx] += 1

        def work(number):
            rand = random.Random(number)
            if number:
                while not stop:
                    store.atomically(move, rand.randrange(16), rand.randrange(16))
            else:
                for _ in range(3):
                    self.assertEqual(store.atomically(audit), 0)
                stop.append(True)

        threads(4, work)
        end = store.close()
        self.assertEqual(sum(end[it] for it in boxes), 0)

    def test_replay(self):
        for seed in range(6):
            store = sto.Store()
            table, tree = store.table(64), store.tree(64)
            log = []

            def work(number):
                rand = random.Random(seed * 31 + number)
                for _ in range(60):
                    calls = [(rand.randrange(5), rand.randrange(12) * 64, rand.randrange(100)) for _ in range(rand.randrange(1, 5))]

                    def code(tx):
                        told = []
                        for operation, key, value in calls:
                            if operation == 0:
                                told.append(table.get(tx, key))
                            elif operation == 1:
                                table[tx, key] = value
                            elif operation == 2:
                                told.append(table.discard(tx, key))
                            elif operation == 3:
                                tree[tx, key] = value
                            else:
                                told.append(tree.items(tx, high=key))
                        return told

                    told, place = store.placed(code)
                    log.append((place, not any(c[0] in (1, 2, 3) for c in calls), calls, told))

            threads(4, work)
            in_table, in_tree = {}, {}
            for _, _, calls, told in sorted(log, key=lambda it: it[:2]):
                again = []
                for operation, key, value in calls:
                    if operation == 0:
                        again.append(in_table.get(key))
                    elif operation == 1:
                        in_table[key] = value
                    elif operation == 2:
                        again.append(in_table.pop(key, None) is not None)
                    elif operation == 3:
                        in_tree[key] = value
                    else:
                        again.append(sorted((k, v) for k, v in in_tree.items() if k <= key))
                self.assertEqual(again, told)
            end = store.close()
            self.assertEqual((end[table], end[tree]), (in_table, in_tree))


if __name__ == "__main__":
    unittest.main()
