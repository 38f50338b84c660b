"""Two threads, each with records and lists of its own."""

import threading
import unittest

import tankcurve


class Threads(unittest.TestCase):
    def test_records_of_their_own(self):
        failures, done = [], []
        together = threading.Barrier(2)

        def work(seed):
            try:
                minutes = [(seed + 7) * k for k in range(300)]
                values = [(seed * 977 + 31 * k) % 65536 for k in range(300)]
                record = tankcurve.Record()
                together.wait(10)
                for k in range(2000):
                    move = record.advance if k == 0 or k % 2 else record.turn
                    point, bandwidth = (seed + 7) * (k // 8 + 20), 90 + seed
                    move(minutes, values, point, bandwidth)
                    if record.row() != tankcurve.evaluate(minutes, values, point, bandwidth):
                        failures.append((seed, k))
                done.append(seed)
            except Exception as error:
                failures.append(error)

        threads = [threading.Thread(target=work, args=(seed,)) for seed in (1, 2)]
        for thread in threads:
            thread.start()
        for thread in threads:
            thread.join()
        self.assertEqual((failures, sorted(done)), ([], [1, 2]))


if __name__ == "__main__":
    unittest.main()
