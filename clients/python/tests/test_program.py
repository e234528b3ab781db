"""The client as a program, against nodes that the tests start: its statuses, and `hold`."""
import os
import signal
import sys
import time
import tomllib
import unittest

from cluster_case import PROGRAM, ClusterCase
from fake_node import FREE, PASSED, Node, numbered
from table_case import ACQUIRE, TableNode
from locks_client import Client, Free, Held, milliseconds, program

STATUS_7 = [sys.executable, "-c", "import os, sys; print(os.environ['LOCKS_FENCE']); sys.exit(7)"]
UP = "echo up; exec sleep 60"
MAY_STAY_HELD = "db may stay held, or may still be granted"
WARNING = os.environ | {"PYTHONWARNINGS": "always::ResourceWarning"}


@unittest.skipUnless(PROGRAM, "LOCKS_PROGRAM does not tell the program")
class ProgramTest(ClusterCase):
    def holds(self, number, script, *words, **how):
        """A run of `hold` whose command is up."""
        process = self.run_program(number, *words, "hold", "db", "--", "sh", "-c", script, **how)
        self.assertEqual(process.stdout.readline(), "up\n")
        return process

    def test_an_answer_is_printed(self):
        self.assertEqual(self.said(1, "acquire", "db", env=WARNING), (0, "granted 1\n", ""))
        self.assertEqual(self.said(2, "acquire", "db"), (0, "busy 1 1\n", ""))
        self.assertEqual(self.said(2, "hold", "db")[0], 2)

    def test_several_ports_follow_one_option(self):
        known = ["--port", "1", "2", "3", "--client", "7", "--port", "4"]
        spread = ["--port", "1", "--port", "2", "--port", "3", "--client", "7", "--port", "4"]
        command = ["hold", "db", "--", "scan", "--port", "5", "6"]
        self.assertEqual(program.spread([*known, *command]), [*spread, *command])
        self.assertEqual(program.spread(["--port", "1", "2", "ask", "db"]), ["--port", "1", "--port", "2", "ask", "db"])
        ports = map(str, self.ports)
        self.assertEqual(self.said(1, "--port", *ports, "ask", "db"), (0, "free 0\n", ""))

    def test_the_version_is_that_of_the_package(self):
        with open(os.path.join(os.path.dirname(__file__), "..", "pyproject.toml"), "rb") as file:
            version = tomllib.load(file)["project"]["version"]
        self.assertEqual(self.said(1, "--version"), (0, f"locks-client {version}\n", ""))

    def test_a_key_file_is_named_as_in_the_library(self):
        for option in ("--key", "--client-key"):
            status, _, err = self.said(1, option, "/no/such/file", "ask", "db")
            self.assertEqual(status, 2)
            self.assertIn("/no/such/file", err)

    def test_a_refusal_has_a_status_where_that_is_asked(self):
        self.assertEqual(self.said(1, "--fail", "acquire", "db"), (0, "granted 1\n", ""))
        self.assertEqual(self.said(2, "--fail", "acquire", "db"), (1, "busy 1 1\n", ""))
        self.assertEqual(self.said(2, "--fail", "check", "db", "1"), (0, "valid\n", ""))
        self.assertEqual(self.said(2, "--fail", "check", "db", "2"), (1, "stale\n", ""))

    def test_a_number_that_was_used_has_a_status(self):
        now = milliseconds()
        self.assertEqual(self.said(1, "acquire", "db", first=now), (0, "granted 1\n", ""))
        status, out, err = self.said(1, "acquire", "db", first=now - 1)
        self.assertEqual((status, out), (122, f"passed {now + 1}\n"))
        self.assertIn("the acquire of db was not sent; another process uses client number 1, or its last number", err)
        self.assertIn(f"if no other process does, give --first {now + 1_000_001}\n", err)
        status, out, err = self.said(1, "ask", "db", first=now + 1)
        self.assertEqual((status, out, err.split(":")[0]), (122, "", "granted, to ask"))
        self.assertIn(f"give --first {now + 1_000_002}\n", err)
        self.assertEqual(self.said(1, "ask", "db", first=2**48)[0], 2)

    def test_a_state_file_is_refused_without_a_traceback(self):
        path = os.path.join(self.folder, "number")
        with open(path, "w", encoding="ascii") as file:
            file.write("17")
        for words in (("ask", "db"), ("hold", "db", "--", "true")):
            status, out, err = self.said(1, "--state", path, *words)
            self.assertEqual((status, out, err.count("\n")), (120, "", 1))
            self.assertIn(path, err)

    def test_nobody_answers(self):
        self.all_nodes(signal.SIGSTOP)
        unsent = "no answer: the ask of db was not sent\n"
        self.assertEqual(self.said(1, "--patience", "0.3", "ask", "db"), (123, "no answer\n", unsent))
        self.all_nodes(signal.SIGCONT)

    def test_a_command_holds_a_lock(self):
        self.assertEqual(self.said(1, "hold", "db", "--", *STATUS_7), (7, "1\n", ""))
        self.assertEqual(self.said(2, "hold", "db", "--", *STATUS_7), (7, "2\n", ""))
        self.assertEqual(self.said(2, "hold", "db", "--", "/no/such/command")[0], 127)
        self.assertEqual(self.said(2, "hold", "db", "--", self.folder)[0], 126)
        self.assertEqual(self.client(3).ask("db"), Free(4))

    def test_a_parent_that_ignores_its_children_changes_no_status(self):
        def ignore():
            signal.signal(signal.SIGCHLD, signal.SIG_IGN)

        self.assertEqual(self.said(1, "hold", "db", "--", *STATUS_7, preexec_fn=ignore), (7, "1\n", ""))

    def test_a_command_waits_for_a_lock(self):
        client = self.client(3)
        client.acquire("db")
        busy = (121, "", "busy 3 1: client 3 holds db at fence 1\n")
        self.assertEqual(self.said(1, "--wait", "1.5", "hold", "db", "--", "true"), busy)
        waiting = self.run_program(1, "hold", "db", "--", "true")
        time.sleep(0.3)
        client.release("db", 1)
        self.assertEqual(self.ended(waiting), (0, "", ""))
        self.assertEqual(client.ask("db"), Free(2))

    def test_a_wait_is_bounded_without_a_majority(self):
        self.all_nodes(signal.SIGSTOP)
        start = time.monotonic()
        status, _, err = self.said(1, "--wait", "1", "hold", "db", "--", "true")
        self.assertLess(time.monotonic() - start, 30.0)
        self.all_nodes(signal.SIGCONT)
        self.assertEqual((status, err), (123, "no answer: the acquire of db was not sent\n"))

    def test_an_acquire_without_an_answer_says_how_to_free_the_lock(self):
        node = Node([FREE], *[[]] * 9)
        how = {"first": 1, "ports": [node.port], "env": WARNING}
        status, _, err = self.said(7, "--wait", "1.5", "hold", "db", "--", "true", **how)
        self.assertEqual(status, 123)
        self.assertIn("may still take effect; `ask db` tells whether client 7 holds it at a fence F", err)
        self.assertIn("`release db F`, as client 7, frees it", err)
        self.assertEqual(err.count("\n"), 1)

    def test_an_acquire_that_was_passed_says_how_to_free_the_lock_and_to_go_on(self):
        for last, way in ((9, "give --first 1000009"), (2**48, "use another client number")):
            node = Node([FREE], [f"{numbered(PASSED, 2)[:-16]}{last:016x}"])
            status, _, err = self.said(7, "hold", "db", "--", "true", first=1, ports=[node.port])
            self.assertEqual((status, err.split(":")[0]), (122, f"passed {last}"))
            self.assertIn("whether the acquire of db took effect is unknown; another process uses client number 7", err)
            self.assertIn(f"{way}; `ask db` tells whether client 7 holds it at a fence F", err)

    def test_signals_reach_a_command(self):
        process = self.holds(1, "trap 'echo told; exit 3' TERM; echo up; while :; do sleep 0.05; done")
        process.send_signal(signal.SIGTERM)
        self.assertEqual(self.ended(process), (3, "told\n", ""))
        self.assertEqual(self.client(3).ask("db"), Free(1))

    def test_a_command_that_a_signal_ends(self):
        process = self.holds(1, UP)
        process.send_signal(signal.SIGINT)
        self.assertEqual(self.ended(process)[0], 128 + signal.SIGINT)
        self.assertEqual(self.client(3).ask("db"), Free(1))

    def test_a_signal_ends_the_wait_for_a_lock(self):
        client = self.client(3)
        client.acquire("db")
        process = self.run_program(1, "hold", "db", "--", "true")
        self.wait_until_asking(process)
        process.send_signal(signal.SIGTERM)
        self.assertEqual(self.ended(process), (128 + signal.SIGTERM, "", ""))
        client.release("db", 1)
        self.assertEqual(client.ask("db"), Free(1))

    def table(self):
        """A node that has a table of its own, so that a test knows what it has executed."""
        node = TableNode()
        self.addCleanup(node.stop)
        return node

    def stopped_while_asking(self, node, signals=1):
        """What a `hold` says that signals stop after its acquire was executed; its answer comes after them."""
        node.replies = lambda body: body != ACQUIRE
        heard = node.done.count(ACQUIRE)
        process = self.run_program(1, "hold", "db", "--", "true", ports=[node.port])
        for sent in range(1, signals + 1):
            while node.done.count(ACQUIRE) < heard + sent and process.poll() is None:
                time.sleep(0.02)
            process.send_signal(signal.SIGTERM)
        node.replies = lambda body: True
        return self.ended(process)

    def test_what_a_signal_stops_is_withdrawn(self):
        node = self.table()
        self.assertEqual(self.stopped_while_asking(node), (128 + signal.SIGTERM, "", ""))
        self.assertEqual((node.table.fences, node.table.holders), ({"db": 1}, {}))

    def test_a_second_run_that_is_stopped_does_not_free_the_lock_of_the_first(self):
        node = self.table()
        process = self.holds(1, UP, ports=[node.port])
        self.assertEqual(self.stopped_while_asking(node), (128 + signal.SIGTERM, "", ""))
        self.assertEqual(node.table.holders, {"db": (1,)})
        process.send_signal(signal.SIGTERM)
        self.ended(process)

    def test_a_second_signal_is_not_silent(self):
        node = Node([FREE], *[[]] * 9)
        hold = ["--patience", "5", "hold", "db", "--", "true"]
        process = self.run_program(7, *hold, first=1, ports=[node.port])
        while len(node.heard) < 2 and process.poll() is None:
            time.sleep(0.02)
        for _ in range(2):
            process.send_signal(signal.SIGTERM)
            time.sleep(0.3)
        status, _, err = self.ended(process)
        self.assertEqual(status, 128 + signal.SIGTERM)
        self.assertIn(MAY_STAY_HELD, err)

    def test_what_two_signals_stop_is_withdrawn(self):
        node = self.table()
        status, _, err = self.stopped_while_asking(node, signals=2)
        self.assertEqual((status, node.table.fences), (128 + signal.SIGTERM, {"db": 1}))
        if node.table.holders:  # the last try of a second was too short for a busy machine
            self.assertIn(MAY_STAY_HELD, err)

    def test_a_command_dies_with_its_hold(self):
        process = self.holds(1, UP)
        process.kill()
        self.assertEqual(process.stdout.read(), "")  # the command has the pipe open as long as it lives
        self.assertEqual(self.client(3).ask("db"), Held(1, 1))
        status, _, err = self.said(1, "hold", "db", "--", "true")
        self.assertEqual((status, err.split(":")[0]), (121, "busy 1 1"))
        self.assertIn("`release db 1` with client number 1 frees it", err)

    def test_a_release_that_fails_has_a_status_of_its_own(self):
        process = self.holds(1, "echo up; read line; exit 7", "--release-wait", "0.5", stdin=-1, env=WARNING)
        self.all_nodes(signal.SIGSTOP)
        process.stdin.write("\n")
        status, _, err = self.ended(process)
        self.all_nodes(signal.SIGCONT)
        self.assertEqual(status, 124)
        self.assertIn("db was not released at 1: no answer; the command's status was 7", err)
        self.assertEqual(err.count("\n"), 1)

    def test_a_release_is_tried_for_long(self):
        process = self.holds(1, "echo up; read line; exit 7", stdin=-1)
        self.all_nodes(signal.SIGSTOP)
        process.stdin.write("\n")
        process.stdin.flush()
        time.sleep(1.0)
        self.all_nodes(signal.SIGCONT)
        self.assertEqual(self.ended(process), (7, "", ""))
        self.assertEqual(self.client(3).ask("db"), Free(1))

    def test_a_signal_ends_the_tries_of_a_release(self):
        process = self.holds(1, "echo up; read line; exit 7", stdin=-1)
        self.all_nodes(signal.SIGSTOP)
        process.stdin.write("\n")
        process.stdin.flush()
        self.wait_until_asking(process)
        process.send_signal(signal.SIGTERM)
        status, _, err = self.ended(process)
        self.all_nodes(signal.SIGCONT)
        self.assertEqual(status, 124)
        self.assertIn("stopped by signal 15, then no answer; the command's status was 7", err)

    def test_a_lock_that_was_broken_is_told(self):
        client = self.client(3)
        client.raise_table()
        process = self.holds(1, "echo up; read line; exit 7", stdin=-1)
        client.break_lock("db", 1)
        process.stdin.write("\n")
        status, _, err = self.ended(process)
        self.assertEqual(status, 124)
        self.assertIn("not held; the command's status was 7", err)

    def test_a_state_that_is_lost_meanwhile_leaves_no_lock(self):
        room = os.path.join(self.folder, "room")
        os.mkdir(room)
        state = ["--state", os.path.join(room, "number")]
        self.assertEqual(self.said(1, *state, "hold", "db", "--", "rm", "-r", room)[0], 0)
        self.assertEqual(self.client(3).ask("db"), Free(1))

    def test_a_state_goes_on(self):
        state = ["--state", os.path.join(self.folder, "number")]
        self.assertEqual(self.said(1, *state, "hold", "db", "--", "true"), (0, "", ""))
        with Client(5, 1, self.ports, state=state[1], patience=60.0) as client:
            self.assertEqual(client.ask("db"), Free(1))


if __name__ == "__main__":
    unittest.main()
