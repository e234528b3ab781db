"""An interrupt at each bytecode of a hold: nothing stays held untold, and nothing is freed that another call holds."""
import dis
import logging
import signal
import sys
import unittest
from unittest import mock

from table_case import Table, TableClient
from locks_client import LocksError, hold
from locks_client.plans import Send


class Interrupter:
    """Raises KeyboardInterrupt at one bytecode of the package, in the order in which they run."""

    def __init__(self, at):
        self.left = at

    def __call__(self, frame, event, arg):
        if "locks_client" not in frame.f_code.co_filename and "contextlib" not in frame.f_code.co_filename:
            return None
        frame.f_trace_opcodes = True
        if event == "opcode":
            self.left -= 1
            if self.left == 0:
                raise KeyboardInterrupt
        return self

    def run(self, call):
        """Whether the call was interrupted, and the notes on its error."""
        before = sys.gettrace()
        sys.settrace(self)
        try:
            call()
        except KeyboardInterrupt as error:
            return True, getattr(error, "__notes__", [])
        finally:
            sys.settrace(before)
        return False, []


class ToldClient(TableClient):
    """A client that finds the lock held by client 9, which releases it once it is watched."""

    def __init__(self, table):
        super().__init__(table, notices=True)
        table.holders["db"], table.fences["db"] = (9,), 1

    def perform(self, effect):
        if not isinstance(effect, Send) or effect.data[:2] != b"LW" or not effect.data[68]:
            return super().perform(effect)
        if self.table.holders.get("db") == (9,):
            del self.table.holders["db"]
        self.waiting.append(b"LW\x01\x0a" + effect.data[4:12] + b"\0\0\0\1" + effect.data[16:68] + b"\1\0\1")
        return None


class InterruptTest(unittest.TestCase):
    def setUp(self):
        logging.disable(logging.CRITICAL)
        self.addCleanup(logging.disable, logging.NOTSET)

    def sweep(self, hold, step, kind=TableClient):
        """Interrupts a hold at each of its bytecodes, or at each `step`th one. How many there were."""
        at = 0
        while True:
            at += step
            table = Table()
            client = kind(table)
            client.cleanup = 0.05
            is_interrupted, notes = Interrupter(at).run(lambda: hold(client))
            if not is_interrupted:
                client.close()
                return at
            with self.subTest(at=at, notes=notes):
                if any(client.client in it for it in table.holders.values()):
                    self.assertTrue(any("was not released" in note for note in notes))
                self.goes_on(client)
            client.core.grants.clear()
            client.close()

    def goes_on(self, client):
        """After any interrupt the client can be used, at the latest once its open request is answered."""
        if client.is_open:
            try:
                client.again()
            except LocksError:
                pass
        client.ask("other")

    def test_a_hold_is_released_or_told(self):
        def hold(client):
            with client.lock("db"):
                pass

        self.assertGreater(self.sweep(hold, 7), 1000)

    def test_a_hold_within_another_one_frees_only_itself(self):
        def hold(client):
            with client.lock("outer"):
                try:
                    with client.lock("db"):
                        pass
                finally:
                    assert client.table.holders.get("outer"), "the outer lock was freed"

        self.assertGreater(self.sweep(hold, 29), 1000)

    def test_a_hold_that_was_waited_for_is_released_or_told(self):
        def hold(client):
            with client.lock("db"):
                pass

        self.assertGreater(self.sweep(hold, 23, ToldClient), 2000)

    def test_all_names_are_released_or_told(self):
        def hold(client):
            with client.lock_all(["b", "a"]):
                pass

        self.assertGreater(self.sweep(hold, 37), 1000)


class Stopped(TableClient):
    """A client to whose process a signal comes once its acquire, or its release, has been answered."""

    def __init__(self, table, call):
        super().__init__(table)
        self.call, self.second = call, None

    def acquire(self, name, wait=0.0, blocking=None):
        fence = super().acquire(name, wait, blocking)
        self.stop("acquire")
        return fence

    def release(self, name, fence):
        self.stop("release")
        super().release(name, fence)

    def stop(self, call):
        if call == self.call:
            sys.settrace(self.second)
            sys._getframe().f_back.f_back.f_trace = self.second
            signal.raise_signal(signal.SIGTERM)


class Second(Interrupter):
    """Sends SIGTERM at one bytecode of the package, of those at which Python handles signals."""

    def __call__(self, frame, event, arg):
        code = frame.f_code.co_code[frame.f_lasti]
        if event == "opcode" and dis.opname[code] not in ("RESUME", "CALL", "CALL_FUNCTION_EX", "JUMP_BACKWARD"):
            return self
        try:
            return super().__call__(frame, event, arg)
        except KeyboardInterrupt:
            signal.raise_signal(signal.SIGTERM)
            return None


class SignalTest(unittest.TestCase):
    """A second signal at each bytecode after a first one."""

    def setUp(self):
        self.enterContext(mock.patch.object(hold, "run_with", return_value=0))
        self.tell = self.enterContext(mock.patch.object(hold, "tell"))
        self.addCleanup(sys.settrace, sys.gettrace())
        self.addCleanup(signal.signal, signal.SIGTERM, signal.signal(signal.SIGTERM, lambda *_: None))
        self.addCleanup(signal.pthread_sigmask, signal.SIG_SETMASK, signal.pthread_sigmask(signal.SIG_BLOCK, ()))

    def stopped(self, call, at):
        """The status of a hold that is stopped there, and whether the second signal came."""
        table, before = Table(), signal.pthread_sigmask(signal.SIG_BLOCK, ())
        client, second = Stopped(table, call), Second(at)
        client.second = second
        self.tell.reset_mock()
        try:
            status = hold.hold(client, "db", ["true"], 0.0, 1.0)
        finally:
            sys.settrace(None)
            hold.take_pending()
            signal.pthread_sigmask(signal.SIG_SETMASK, before)
        if table.holders:
            self.assertIn(" stay held, or may still be granted", str(self.tell.call_args_list))
            self.held.append(at)
        client.core.grants.clear()
        client.close()
        return status, second.left <= 0

    def sweep(self, call, wanted):
        """How many points there are. Hardly any leaves the lock held: the last try is for a second."""
        at, came, self.held = 0, True, []
        while came:
            at += 1
            with self.subTest(at=at):
                came = False  # a failure ends the sweep
                status, came = self.stopped(call, at)
                self.assertEqual(status, wanted)
        self.assertLess(len(self.held), 0.1 * at)
        return at

    def test_a_second_signal_ends_no_withdrawal_untold(self):
        self.assertGreater(self.sweep("acquire", 128 + signal.SIGTERM), 100)

    def test_a_second_signal_ends_no_release_untold(self):
        self.assertGreater(self.sweep("release", 0), 100)


if __name__ == "__main__":
    unittest.main()
