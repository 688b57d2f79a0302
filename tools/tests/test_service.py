"""A `serve`: whole cycles over connections, members side by side, and what an end or a crash leaves."""

import shutil
import signal
import subprocess
import sys
import threading
import unittest
from pathlib import Path

from running import EXAMPLES, PATIENCE, TOOLS, Ran, run
from serving import ROSTER, InService, free_port
from test_client import whole_cycle

sys.path.insert(0, str(TOOLS))

from delkwoan import replies
from delkwoan.session import LinkClosed


class Service(InService):
    def test_a_whole_cycle(self) -> None:
        self.start()
        with self.session() as session:
            whole_cycle(self, session)
            self.assertEqual(session.close(), (0, ""))

    def test_two_members_side_by_side(self) -> None:
        self.start()
        one, other = self.session("A"), self.session("B")
        self.assertEqual(one.trade("A", "B", "P", 10, "2026-03-02"), replies.Traded(1, 1))
        self.assertEqual(other.affirm(1), replies.Live(2, 1))
        self.assertEqual(one.nets("P"), replies.Nets(2, 10, 0, 10))
        self.assertEqual(other.nets("P"), replies.Nets(2, 0, 10, -10))

    def test_four_members_at_once(self) -> None:
        """Each position is one session's, and a session's positions never fall."""
        self.start()
        places: dict[str, list[int]] = {}

        def trade(seller: str, buyer: str) -> None:
            session = self.session(seller)
            answers = [session.trade(seller, buyer, "P", 1 + count, "2026-03-02") for count in range(100)]
            places[seller + buyer] = [answer.position for answer in answers]

        pairs = [("A", "B"), ("B", "A"), ("B", "C"), ("C", "A")]
        threads = [threading.Thread(target=trade, args=pair) for pair in pairs]
        for thread in threads:
            thread.start()
        for thread in threads:
            thread.join()
        self.assertEqual(sorted(sum(places.values(), [])), [*range(1, 401)])
        records = self.records()
        for pair, positions in places.items():
            self.assertEqual(positions, sorted(positions))
            for count, position in enumerate(positions):
                self.assertEqual(records[position - 1].line, f"TRADE {pair[0]} {pair[1]} P {1 + count} 2026-03-02")

    def test_the_client(self) -> None:
        self.start()
        lines = (EXAMPLES / "first-trades.session").read_bytes()
        ran = self.client("--raw", "--connect", self.address, ROSTER, input=lines)
        self.assertEqual(ran, Ran(0, (EXAMPLES / "first-trades.replies").read_bytes(), b""))
        lines = b"HELLO B KB\nNETS P\nAFFIRM 9\nBYE\n"
        ran = self.client("--connect", f"localhost:{self.port}", ROSTER, input=lines)
        told = b"[2]  hello  NAME B\n[2]  nets  OUT 0  INTO 10  NET -10\n[2]  refused: unknown-trade (11)\n[2]  bye\n"
        self.assertEqual(ran, Ran(1, told, b""))

    def test_an_end_of_the_service_while_a_client_waits(self) -> None:
        """The service is held before the client's second line, and then ends."""
        self.start()
        assert self.service is not None
        words: list[str | Path] = [TOOLS / "client", "--connect", self.address, ROSTER]
        waiting = subprocess.Popen(words, stdin=subprocess.PIPE, stdout=subprocess.PIPE, stderr=subprocess.PIPE)
        assert waiting.stdin is not None and waiting.stdout is not None
        waiting.stdin.write(b"HELLO B KB\n")
        waiting.stdin.flush()
        self.assertEqual(waiting.stdout.readline(), b"[0]  hello  NAME B\n")
        self.hold()
        waiting.stdin.write(b"NETS P\n")
        waiting.stdin.flush()
        with self.assertRaises(subprocess.TimeoutExpired):
            waiting.wait(0.5)
        self.service.kill()
        self.assertEqual(waiting.communicate(timeout=PATIENCE), (b"", b"connection lost behind position 0\n"))
        self.assertEqual(waiting.returncode, 21)

    def test_an_end_of_the_service_while_a_fifth_waits(self) -> None:
        """Four sessions have the seats, so that a fifth waits unanswered; then the service ends."""
        self.start()
        assert self.service is not None
        sessions = [*(self.session("A") for _ in range(4)), self.session()]
        timer = threading.Timer(0.5, self.service.terminate)
        timer.start()
        for session in reversed(sessions):
            with self.assertRaises(LinkClosed) as caught:
                session.hello("B", "KB")
            self.assertEqual((caught.exception.status, caught.exception.errors), (21, "connection lost"))
            self.assertEqual(caught.exception.position, None if session is sessions[-1] else 0)

    def test_one_that_waits_is_served_next(self) -> None:
        self.start()
        seated = [self.session("A") for _ in range(4)]
        greeted: list[replies.Hello] = []
        waiting = self.session()
        thread = threading.Thread(target=lambda: greeted.append(waiting.hello("B", "KB")))
        thread.start()
        thread.join(0.5)
        self.assertEqual(greeted, [])
        self.assertEqual(seated[1].bye(), replies.Bye(0))
        thread.join(PATIENCE)
        self.assertEqual(greeted, [replies.Hello(0, "B")])

    def test_no_service(self) -> None:
        ran = self.client("--connect", self.address, ROSTER, input=b"BYE\n")
        self.assertEqual(ran, Ran(21, b"", f"no connection to 127.0.0.1 at {self.port}\n".encode()))

    def test_crashes_lose_nothing_that_was_acknowledged(self) -> None:
        """A service is ended in the middle of trades, and goes on with what is there; so is each of its successors. All changes are
        trades, so a trade's number is its position, also where the journal began again from a base meanwhile."""
        acknowledged: dict[int, int] = {}
        amount = 0
        for end in (signal.SIGTERM, signal.SIGKILL, signal.SIGKILL, signal.SIGTERM):
            self.start()
            assert self.service is not None
            session = self.session()
            place = session.hello("A", "KA").position
            self.assertIn(place - max(acknowledged, default=0), (0, 1))
            amount += 1
            acknowledged[session.trade("A", "B", "P", amount, "2026-03-02").position] = amount
            timer = threading.Timer(0.3, self.service.send_signal, [end])
            timer.start()
            with self.assertRaises(LinkClosed):
                while True:
                    amount += 1
                    acknowledged[session.trade("A", "B", "P", amount, "2026-03-02").position] = amount
            self.assertEqual(self.service.wait(PATIENCE), -end)
            self.kill()
            told = [line.split(" ") for line in run([TOOLS / "audit", ROSTER, self.journal]).output.decode().splitlines()]
            self.assertIn(int(told[-1][1]) - max(acknowledged), (0, 1))
            amounts = {int(words[1]): int(words[5]) for words in told if words[0] == "trade"}
            self.assertEqual({number: amounts.get(number) for number in acknowledged}, acknowledged)

    def test_a_backup_of_a_running_service_is_restored(self) -> None:
        self.start()
        session = self.session("A")
        session.trade("A", "B", "P", 10, "2026-03-02")
        copy = self.folder / "copy"
        shutil.copyfile(self.journal, copy)
        session.trade("A", "B", "P", 20, "2026-03-02")
        self.kill()
        self.assertEqual(len(self.records()), 2)
        shutil.copyfile(copy, self.journal)
        self.start()
        restored = self.session("A")
        self.assertEqual([row.amount for row in restored.statement().rows], [10])
        self.assertEqual(restored.trade("A", "B", "P", 30, "2026-03-02"), replies.Traded(2, 2))

    def test_what_is_in_use(self) -> None:
        """A journal that a service has is nobody else's, and neither is its address."""
        self.start()
        script = [self.program, "script", ROSTER, self.journal]
        self.assertEqual(run(script, b"HELLO A KA\n"), Ran(6, b"", b"disk fault\n"))
        self.assertEqual(run(self.words(self.folder / "other")), Ran(10, b"", b"listener fault\n"))
        self.port = free_port()
        self.assertEqual(run(self.words()), Ran(6, b"", b"disk fault\n"))


if __name__ == "__main__":
    unittest.main()
