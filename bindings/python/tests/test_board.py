"""The board by document 01's schedule, and a running job by the oracle's evaluations."""
import threading
import unittest
from itertools import count
from typing import List

from peng_robinson_board import Board, Kind, Look, Refused, Request, Ticket, answer
from peng_robinson_board.record import bits

from tests.oracle_cases import CASES, LINE_TRACES, TRACE

# document 01, "Kinds and spans"; document 02, P3 and P5
SPANS = {1: 3101, 2: 6204, 3: 30, 4: 30, 5: 150, 6: 250, 7: 150, 8: 200, 9: 200}


def request_of(kind: int) -> Request:
    """The first request of a kind that is answered."""
    return Request.from_bytes(next(case.request() for case in CASES if case.kind == kind and case.status == 0))


class Schedule(unittest.TestCase):
    def refused(self, number: int, call: object, *words: object) -> None:
        with self.assertRaises(Refused) as caught:
            call(*words)  # type: ignore[operator]
        self.assertEqual(caught.exception.number, number)

    def test_a_job_alone_comes_out_with_the_last_turn_of_its_span(self) -> None:
        for kind, span in SPANS.items():
            queue = kind % 4
            with self.subTest(kind=kind, queue=queue):
                board, request = Board(), request_of(kind)
                self.assertEqual(board.quote(queue, kind), (span - 1) * 4 + queue + 1)
                self.assertEqual(board.submit(queue, request), Ticket(queue, 0))
                for _ in range((span - 1) * 4 + queue):
                    self.assertIsNone(board.turn())
                record = board.turn()
                assert record is not None
                self.assertEqual((record.ticket, record.kind, record.queue), (0, kind, queue))
                alone = answer(request)
                self.assertEqual(record.line(), alone.line())

    def test_eight_jobs_and_no_ninth(self) -> None:
        board, request = Board(), request_of(3)
        self.assertEqual([board.submit(1, request).number for _ in range(8)], list(range(8)))
        before = board.to_bytes()
        self.refused(4, board.submit, 1, request)
        self.assertEqual(board.to_bytes(), before)
        self.assertEqual(board.submit(2, request), Ticket(2, 0))
        came = []
        for place in range(1, 8 * 30 * 4 + 1):
            record = board.turn()
            if record is not None:
                came.append((place, record.ticket, record.queue))
        expected = [((30 * (ticket + 1) - 1) * 4 + 2, ticket, 1) for ticket in range(8)] + [(29 * 4 + 3, 0, 2)]
        self.assertEqual(came, sorted(expected))
        self.assertEqual(board.submit(1, request).number, 8)

    def test_refusals_change_nothing(self) -> None:
        board, request = Board(), request_of(4)
        board.submit(0, request)
        board.turn()
        before = board.to_bytes()
        self.refused(1, board.submit, 4, request)
        self.refused(2, board.submit, 0, Request(0, 1, request.block))
        self.refused(2, board.submit, 0, Request(10, 2, request.block))
        self.refused(3, board.submit, 0, Request(4, 9, request.block))
        for kind in (7, 8, 9):
            self.refused(3, board.submit, 0, Request(kind, 1, request.block))
            self.refused(3, board.submit, 0, Request(kind, 3, request.block))
        self.refused(8, board.submit, 0, Request(4, 1, request.block[:-1]))
        self.refused(5, board.turn, 63)
        self.refused(1, board.look, 4)
        self.refused(7, board.look, 1)
        self.refused(1, board.quote, 4, 0)
        self.refused(2, board.quote, 0, 0)
        self.refused(2, board.quote, 0, 10)
        self.assertEqual(board.to_bytes(), before)
        for data in (b"", bytes(24_583), b"\xff" * 24_584):
            broken = Board(data)
            self.refused(6, broken.submit, 0, request)
            self.refused(6, broken.turn)
            self.refused(6, broken.look, 0)
            self.refused(6, broken.quote, 4, 0)
            self.assertEqual(broken.to_bytes(), data)

    def test_longer_record_buffers(self) -> None:
        board = Board()
        board.submit(0, Request(3, 1, bytes(640)))
        records = [record for record in (board.turn(256) for _ in range(117)) if record is not None]
        self.assertEqual([record.line() for record in records], ["3 11 " + "0000000000000000 " * 3 + "0"])

    def test_a_copy_of_the_bytes_goes_on_alike(self) -> None:
        board = Board()
        board.submit(0, request_of(3))
        for _ in range(50):
            board.turn()
        copy = Board(board.to_bytes())
        for _ in range(67):
            self.assertEqual(board.turn(), copy.turn())
        self.assertEqual(board.to_bytes(), copy.to_bytes())


class Quotes(unittest.TestCase):
    def taken(self, board: Board, queue: int, kind: int) -> int:
        """The turns until a job comes out that is submitted to a copy of the board."""
        copy = Board(board.to_bytes())
        ticket = copy.submit(queue, request_of(kind)).number
        for turns in count(1):
            record = copy.turn()
            if record is not None and (record.queue, record.ticket) == (queue, ticket):
                return turns
        raise AssertionError("no record")

    def test_the_record_comes_with_the_quoted_turn(self) -> None:
        board = Board()
        # after 118 turns the first job of queue 1 has left
        for kind, turns in ((3, 0), (5, 1), (4, 46), (6, 2), (8, 72)):
            board.submit(1, request_of(kind))
            for _ in range(turns):
                board.turn()
            before = board.to_bytes()
            for queue in range(4):
                for asked in (3, 7, 9):
                    with self.subTest(after=kind, queue=queue, asked=asked):
                        self.assertEqual(board.quote(queue, asked), self.taken(board, queue, asked))
            self.assertEqual(board.to_bytes(), before)

    def test_a_full_queue(self) -> None:
        board = Board()
        for held in range(8):
            # each job takes 30 turns of the queue, and every fourth turn is the queue's
            self.assertEqual(board.quote(2, Kind.SPINODAL_BRANCH), (30 * (held + 1) - 1) * 4 + 3)
            board.submit(2, request_of(3))
        with self.assertRaises(Refused) as caught:
            board.quote(2, 4)
        self.assertEqual(caught.exception.number, 4)

    def test_a_job_in_between_counts_and_later_ones_do_not(self) -> None:
        board = Board()
        quoted = board.quote(0, 5)
        board.submit(0, request_of(3))
        self.assertEqual(board.quote(0, 5), quoted + 120)
        board.submit(0, request_of(5))
        for queue in range(4):
            board.submit(queue, request_of(4))
        came = [record for record in (board.turn() for _ in range(quoted + 120)) if record is not None]
        self.assertEqual((came[-1].queue, came[-1].ticket, came[-1].kind), (0, 1, 5))


class Looks(unittest.TestCase):
    def test_look_shows_the_oracles_evaluations(self) -> None:
        for kind, trace in {1: TRACE, **LINE_TRACES}.items():
            board = Board()
            board.submit(0, request_of(kind))
            for turns in range(1, 15):
                for _ in range(4 if turns > 1 else 1):
                    board.turn()
                made = min(turns, len(trace))
                look = board.look(0)
                with self.subTest(kind=kind, turns=turns):
                    self.assertEqual((look.evaluations, bits(look.density)), (made, trace[made - 1]))

    def test_density_in_si(self) -> None:
        self.assertAlmostEqual(Look(1, 0.001).density_si, 1660.5390671738, delta=1e-9)


class Threads(unittest.TestCase):
    def test_one_board_of_many_threads(self) -> None:
        board, lines = Board(), []  # type: Board, List[str]
        for queue in range(4):
            for _ in range(8):
                board.submit(queue, request_of(3))

        def turns() -> None:
            for _ in range(240):
                record = board.turn()
                if record is not None:
                    lines.append(record.line())

        threads = [threading.Thread(target=turns) for _ in range(4)]
        for thread in threads:
            thread.start()
        for thread in threads:
            thread.join()
        self.assertEqual(lines, [answer(request_of(3)).line()] * 32)
