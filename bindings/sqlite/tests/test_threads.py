"""Connections in several threads."""

import threading
import unittest

from database import connect, rows, value

THREADS = 8
ROUNDS = 300
WALK = r"SELECT text FROM regex_lite_matches('a1 b2 c3', '[a-z]\d')"


class Threads(unittest.TestCase):
    """All threads use the same patterns at the same time."""

    def run_all(self, shared: bool) -> None:
        """Each thread searches, by a connection of its own or by one that all share."""
        common = connect()
        failed: list[BaseException] = []

        def work() -> None:
            connection = common if shared else connect()
            try:
                for n in range(ROUNDS):
                    self.assertEqual(value(connection, "'xay' REGEXP ?", f'a|{n % 50}'), 1)
                    self.assertEqual(rows(connection, WALK), [('a1',), ('b2',), ('c3',)])
            except BaseException as error:  # which would else be lost with the thread
                failed.append(error)
            if not shared:
                connection.close()

        threads = [threading.Thread(target=work) for _ in range(THREADS)]
        for thread in threads:
            thread.start()
        for thread in threads:
            thread.join()
        common.close()
        self.assertEqual(failed, [])

    def test_own_connections(self) -> None:
        """Each has its own connection."""
        self.run_all(shared=False)

    def test_one_connection(self) -> None:
        """They share a connection, which SQLite guards."""
        self.run_all(shared=True)


if __name__ == '__main__':
    unittest.main()
