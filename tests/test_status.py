"""What `locks status` asks, which reports it takes, and what it prints and tells by its status."""
import hashlib
import hmac
import json
import os
import re
import subprocess
import tempfile
import time
import unittest

from harness.peers import GENESIS, LONG, OTHER_GENESIS, RAISED, SENDS, Peers, heard, node, older, probe, report, silent
from harness.peers import state, token_of

PROGRAM = os.environ.get("LOCKS_PROGRAM")


@unittest.skipUnless(PROGRAM, "LOCKS_PROGRAM does not tell the program")
class StatusTest(unittest.TestCase):
    def asks(self, answers, *words):
        """The status and the lines of the program where these peers answer; each port is a letter, a for the first."""
        with Peers(answers) as peers:
            command = [PROGRAM, "status", "--cluster", "5", "--port", *map(str, peers.ports), *words]
            process = subprocess.Popen(command, stdout=subprocess.PIPE, stderr=subprocess.PIPE, text=True)
            status, out, err = peers.serve(process)
            self.assertEqual(err, "")
            self.came = peers.came
            for letter, port in zip("abcdefg", peers.ports):
                out = re.sub(rf"\b{port}\b", letter, out)
            return status, out.splitlines()

    def tells(self, answers, status, *parts):
        """The status is that, and each of these stands in the output."""
        found, lines = self.asks(answers)
        self.assertEqual(found, status, lines)
        for part in parts:
            self.assertIn(part, "\n".join(lines))
        return lines

    def test_a_probe_is_those_bytes(self):
        self.asks([node(1, leads=1)])
        self.assertEqual(self.came, [probe(2)])

    def test_who_is_silent_is_asked_in_both_forms(self):
        self.asks([silent], "--wait", "200")
        self.assertEqual(self.came, [probe(2), probe(2), probe(1), probe(2), probe(1)])

    def test_older_nodes_are_asked_in_form_1(self):
        began = time.monotonic()
        lines = self.tells([older(1, leads=1), older(2), older(3)], 0, "node 1, port a: leads, executed 10")
        self.assertLess(time.monotonic() - began, 20)  # a busy machine is slow
        self.assertEqual(lines[-1], "majority: 3 of 3 up")
        self.assertEqual(self.asks([older(1, leads=1), older(2), older(3)], "--until", "ready", "20")[0], 0)
        self.tells([node(1, leads=1), older(2), silent], 0, "majority: 2 of 3 up")

    def test_a_leader_that_hears_no_majority_does_not_serve(self):
        answers = [node(1, leads=1, reach=heard(1)), node(2, reach=heard(2)), node(3, reach=heard(0))]
        lines = self.tells(answers, 1, "why: node 1, which leads, hears no majority: check what keeps")
        self.assertIn("node 1, port a: leads, hears 1 of 3 members, no majority, executed 10", lines[0])
        self.assertIn("node 2, port b: follows 1, heard 1 tick ago, executed 10", lines[1])
        self.assertIn(", hears 0 of 3 members, no majority, executed 10", lines[2])
        self.assertEqual(self.asks(answers, "--until", "ready", "1")[0], 1)
        former = node(1, leads=1, promised=2, reach=heard(1))
        others = [node(2, leads=1, reach=heard(2)), node(3, leader=2, reach=heard(2))]
        lines = self.tells([former, *others], 0, "why: node 1, which leads, hears no majority: check what keeps")
        self.assertEqual("\n".join(lines).count("why:"), 1, lines)
        why = "why: node 3 hears no majority, and could not read 5 of what came: compare its key with the others'"
        self.tells([node(1, leads=1, reach=heard(2)), *answers[1:]], 0, why)
        self.tells([node(1, leads=1), *answers[1:]], 0)

    def test_who_may_not_read_bundles_is_named(self):
        why = "why: node 2 may not read the bundles of others: start it with this program, or them without --bundle"
        lines = self.tells([node(1, leads=1, reach=SENDS), older(2), node(3)], 0, why)
        self.assertEqual("\n".join(lines).count("why:"), 1, lines)
        self.tells([node(1, leads=1, reach=SENDS), node(2, reach="0000 00 00 0000 0000"), node(3)], 0, why)
        lines = self.tells([node(1, leads=1), older(2), node(3)], 0)
        self.assertNotIn("why:", "\n".join(lines))

    def test_who_has_executed_other_commands_is_named(self):
        odd = node(1, leader=2, state=state(64, "a"))
        others = [node(2, leads=1, state=state(64, "b")), node(3, leader=2, state=state(64, "b"))]
        why = "why: node 1 has executed other commands than nodes 2 3: stop it"
        lines = self.tells([odd, *others], 1, why)
        self.assertEqual("\n".join(lines).count("why:"), 1, lines)
        self.tells([odd, odd, *others], 1, why)
        status, [told] = self.asks([odd, *others], "--json")
        told = json.loads(re.sub(r'"port":([a-z])', r'"port":"\1"', told))
        self.assertEqual((status, told["served"], told["one_state"]), (1, False, False))
        self.assertEqual([it["state_differs"] for it in told["nodes"]], [True, False, False])
        self.assertEqual([it["state_position"] for it in told["nodes"]], [64, 64, 64])
        status, lines = self.asks([odd, *others], "--prometheus")
        self.assertEqual(status, 1)
        self.assertIn('locks_one_state{cluster="5"} 0', lines)
        for number, port, differs in ((1, "a", 1), (2, "b", 0), (3, "c", 0)):
            labels = f'cluster="5",node="{number}",address="127.0.0.1",port="{port}"'
            self.assertIn(f"locks_state_differs{{{labels}}} {differs}", lines)
        self.assertEqual(self.asks([odd, *others], "--until", "ready", "1")[0], 1)

    def test_of_as_many_nodes_each_is_named(self):
        answers = [node(1, leads=1, state=state(64, "a")), node(2, state=state(64, "b"))]
        answers.append(node(3, state=state(128, "c")))
        tail = ", as many nodes: decide which state is right, and stop the others"
        first, second = (f"why: node {it} has executed other commands than {o}{tail}" for it, o in ((1, 2), (2, 1)))
        lines = self.tells(answers, 1, first, second)
        self.assertEqual("\n".join(lines).count("why:"), 2, lines)

    def test_states_of_several_positions_are_not_compared(self):
        answers = [node(1, leads=1, state=state(64, "a")), node(2, state=state(128, "b")), node(3)]
        lines = self.tells(answers, 0)
        self.assertNotIn("why:", "\n".join(lines))
        self.tells([node(1, leads=1, state=state(64, "a")), node(2, state=state(64, "a")), older(3)], 0)
        self.tells([node(1, leads=1, state=state(0, "a")), node(2, state=state(0, "b")), node(3)], 0)

    def test_three_nodes_are_a_line_each(self):
        lines = self.tells([node(1, leads=1, silence=0, executed=12), node(2), node(3, executed=12)], 0)
        tail = (
            "promised 3.1, snapshot 4, members 1 2 3, a change takes effect in 1 position,"
            " 2 requests wait, 6 sends failed"
        )
        self.assertEqual(lines, [
            f"node 1, port a: leads, executed 12, {tail}",
            f"node 2, port b: follows 1, heard 1 tick ago, executed 10 (2 behind), {tail}",
            f"node 3, port c: follows 1, heard 1 tick ago, executed 12, {tail}",
            "majority: 3 of 3 up; names 0 of 512",
        ])

    def test_one_of_a_kind_is_told_in_the_singular(self):
        self.tells([node(1, leads=1, waiting=1, unsent=1), node(2), node(3)], 0, ", 1 request waits, 1 send failed\n")

    def test_a_raised_table_is_told(self):
        self.tells([node(1, leads=1, build=RAISED), node(2), node(3)], 0, "majority: 3 of 3 up; names 0 of 512; raised")

    def test_watches_and_names_are_told(self):
        leader = node(1, leads=1, reach=heard(2, watches=3, names=511))
        lines = self.tells([leader, node(2, reach=heard(2, names=512)), older(3)], 0)
        self.assertEqual([line.endswith(", 6 sends failed, watches 3") for line in lines], [True, False, False, False])
        self.assertEqual(["watches" in line for line in lines], [True, False, False, False])
        self.assertEqual(lines[-1], "majority: 3 of 3 up; names 512 of 512")

    def test_a_majority_is_enough(self):
        lines = self.tells([node(1, leads=1), silent, node(3)], 0, "port b: no answer", "majority: 2 of 3 up")
        self.assertNotIn("why:", "\n".join(lines))

    def test_no_majority_is_told(self):
        self.tells([node(1, leads=1), silent, silent], 1, "majority: 1 of 3 up", "why: no majority")

    def test_no_majority_is_reason_enough(self):
        lines = self.tells([node(1, leader=0, silence=28), silent, silent], 1, "why: no majority")
        self.assertEqual("\n".join(lines).count("why:"), 1, lines)

    def test_one_node_asked_twice_is_no_majority(self):
        self.tells([node(1, leads=1), node(1, leads=1), node(1, leads=1)], 1, "majority: 1 of 3 up")

    def test_nobody_leads(self):
        self.tells([node(1, leader=0), node(2, leader=0)], 1, "knows no leader for 1 tick", "why: nobody leads")

    def test_who_is_followed_and_does_not_lead_is_named(self):
        answers = [node(1, leader=3), node(2, leader=3), node(3, leader=0, silence=0, promised_by=3)]
        why = "why: nobody leads: an election takes seconds; if it lasts, node 3 sends and hears nobody"
        self.tells(answers, 1, why)
        self.tells([*answers[:2], silent], 1, "if it lasts, node 3, which others follow, does not answer: stop it, and")

    def test_who_has_just_begun_is_not_said_to_hear_nobody(self):
        why = "if it lasts, look again: node 3, which others follow, does not lead yet"
        for how in ({"silence": 0, "promised_by": 3, "ticks": 3}, {"silence": 2, "ticks": 2}, {"silence": 9}):
            with self.subTest(how=how):
                answers = [node(1, leader=3), node(2, leader=3), node(3, leader=0, **how)]
                lines = self.tells(answers, 1, why)
                self.assertNotIn("sends and hears nobody", "\n".join(lines))

    def test_who_hears_a_majority_and_is_not_elected_lacks_long_datagrams(self):
        """Reports of nodes whose probes pass and whose promises do not."""
        answers = [node(2, leader=0, silence=0, promised=3, reach=heard(2)), node(3, leader=2, reach=heard(2)), silent]
        why = "why: nobody leads: an election takes seconds; if it lasts, let long datagrams pass (fragments)"
        lines = self.tells(answers, 1, why)
        self.assertNotIn("sends and hears nobody", "\n".join(lines))
        seeks = node(1, leader=3, silence=0, reach=heard(3))
        why = "why: node 1 seeks votes, and hears a majority: if that lasts, let long datagrams pass (fragments)"
        self.tells([seeks, node(2, leads=1), node(3, leader=2)], 0, why)

    def test_a_leader_that_has_just_died_shows_nothing_of_long_datagrams(self):
        first, second = (node(number, leader=3, silence=9, reach=heard(2)) for number in (1, 2))
        why = "why: nobody leads: an election takes seconds; if it lasts, node 3, which others follow, does not answer"
        seeks = node(1, leader=3, silence=0, reach=heard(2))
        for answers in ([first, second, silent], [seeks, second, silent]):
            lines = self.tells(answers, 1, why)
            self.assertEqual("\n".join(lines).count("why:"), 1, lines)

    def test_a_node_that_is_cut_off_is_named(self):
        answers = [node(1, leads=1), node(2), node(3, reach=heard(1), unread=0)]
        why = "why: node 3 hears no majority: if that lasts, check its --port, the hosts and its network"
        self.tells(answers, 0, why)
        self.tells([node(1, leads=1), node(2), node(3, reach=heard(2), unread=0)], 0)

    def test_a_node_that_is_no_member_is_named(self):
        for parts, says in (({}, "node 4, port d: is not a member, executed"), ({"leader": 1}, "port d: follows 1, ")):
            with self.subTest(parts=parts):
                answers = [node(1, leads=1), node(2), node(3), node(4, **({"leader": 0, "silence": 28} | parts))]
                lines = self.tells(answers, 0, "why: node 4 is not a member", says)
                self.assertNotIn("node 4 hears nobody", "\n".join(lines))

    def test_a_leader_that_no_majority_follows_is_named(self):
        why = "why: no majority follows node 1, which leads: they do not hear it, or it does not hear them"
        for other in ({"silence": 8}, {"promised": 2}, {"leader": 2}, {"leader": 0}):
            with self.subTest(other=other):
                self.tells([node(1, leads=1), node(2, **other), node(3, **other)], 1, "majority: 3 of 3 up", why)
        self.tells([node(1, leads=1), node(2, silence=7), node(3, leader=0)], 0)

    def test_nobody_answers(self):
        self.tells([silent], 1, "port a: no answer", "why: nobody answers")

    def test_a_node_that_hears_nobody_is_named(self):
        self.tells([node(1, leads=1), node(2), node(3, leader=0, silence=28)], 0, "why: node 3 hears nobody")

    def test_a_node_that_seeks_votes_is_named_and_follows_nobody(self):
        seeks = node(1, leader=3, silence=0)
        answers = [seeks, node(2, leads=1), node(3, leader=2)]
        lines = self.tells(answers, 0, "why: node 1 seeks votes: if that lasts, check")
        self.assertIn("node 1, port a: seeks votes, executed 10", lines[0])
        self.tells([seeks, node(2, leader=0), silent], 1, "if it lasts, the members do not hear each other")

    def test_who_is_no_member_is_named_where_there_is_no_majority(self):
        answers = [node(1, leads=1), silent, silent, node(4)]
        lines = self.tells(answers, 1, "why: no majority", "why: node 4 is not a member")
        self.assertEqual("\n".join(lines).count("why:"), 2, lines)

    def test_two_geneses_are_told(self):
        answers = [node(1, leads=1), node(2), node(3), node(4, genesis=OTHER_GENESIS)]
        self.tells(answers, 1, "genesis differs: 4", "why: two geneses")

    def test_the_genesis_that_most_nodes_tell_is_the_measure(self):
        alone = node(4, genesis=OTHER_GENESIS, leads=1, promised=9, executed=90, members="01 00000004 1b5c")
        told = "majority: 3 of 3 up; names 0 of 512; genesis differs: 4"
        lines = self.tells([alone, node(1, leads=1), node(2), node(3)], 1, told)
        self.assertNotIn("behind", "\n".join(lines))
        answers = [alone, node(1, leader=0), node(2, leader=0)]
        self.tells(answers, 1, "2 of 3 up; names 0 of 512; genesis differs: 4", "why: nobody leads")

    def test_of_two_geneses_that_as_many_tell_that_of_the_leader_is_the_measure(self):
        other = lambda number, **parts: node(number, genesis=OTHER_GENESIS, **parts)
        self.tells([node(1, leads=1), node(2), other(3, leads=1, promised=4), other(4)], 1, "genesis differs: 1 2\n")
        self.tells([node(1), node(2), other(3, leads=1, promised=1), other(4, promised=9)], 1, "genesis differs: 1 2\n")
        self.tells([other(3), node(2), node(1), other(4)], 1, "genesis differs: 3 4\n")

    def test_a_node_that_is_asked_twice_tells_its_genesis_once(self):
        other = node(4, genesis=OTHER_GENESIS)
        self.tells([other, other, node(1)], 1, "genesis differs: 4 4\n")

    def test_nothing_else_is_a_report(self):
        """Whatever is spoiled in one report: its place, and the byte that stands there then."""
        spoils = [
            (0, 0x4B),
            (1, 0x4B),
            (2, 2),
            (3, 9),
            (11, 6),
            (12, 0xFF),
            (17, 1),
            (25, 1),
            (63, 2),
            (64, 0xFF),
            (131, 8),
            (131, 0),
            (135, 2),
            (141, 1),
            (173, 1),
        ]
        for place, byte in spoils:
            with self.subTest(place=place):
                def spoiled(probe):
                    good = bytearray(report(1, token_of(probe), leads=1))
                    good[place] = byte
                    return [bytes(good)]
                self.assertEqual(self.asks([spoiled], "--wait", "100")[1][0], "port a: no answer from 127.0.0.1")
        for place, byte in ((2, 1), (3, 9), (173, 1), (174, 2), (176, 2), (177, 2), (182, 2)):
            with self.subTest(place=place, form=2):
                def spoiled(probe):
                    good = bytearray(report(1, token_of(probe), leads=1, reach="0100 01 01 ffff ffff"))
                    self.assertEqual(len(good), LONG)
                    good[place] = byte
                    return [bytes(good), bytes(good[:-1]), bytes(good + b"\0")]
                self.assertEqual(self.asks([spoiled], "--wait", "100")[1][0], "port a: no answer from 127.0.0.1")
        cut = lambda probe: [report(1, token_of(probe))[:-1], report(1, token_of(probe)) + b"\0", b"", b"x"]
        self.assertEqual(self.asks([cut], "--wait", "100")[1][0], "port a: no answer from 127.0.0.1")

    def test_whoever_is_silent_is_asked_again(self):
        seen = []

        def late(probe):
            seen.append(probe)
            return [report(1, token_of(probe), leads=1)] if len(seen) == 3 else []

        self.tells([late, node(2)], 0, "node 1, port a: leads")
        self.assertEqual(seen, [probe(2), probe(2), probe(1)])

    def test_three_nodes_take_no_wait(self):
        began = time.monotonic()
        self.asks([node(1, leads=1), node(2), node(3)], "--wait", "60000")
        self.assertLess(time.monotonic() - began, 30.0)

    def test_json_is_one_object(self):
        status, lines = self.asks([node(1, leads=1, reach=heard(2, names=7)), silent, older(3)], "--json")
        self.assertEqual((status, len(lines)), (0, 1))
        told = json.loads(re.sub(r'"port":([a-z])', r'"port":"\1"', lines[0]))
        self.assertEqual(
            {key: told[key] for key in told if key != "nodes"},
            {"cluster": 5, "served": True, "one_genesis": True, "one_state": True, "members_up": 2, "members": 3},
        )
        first, second, third = told["nodes"]
        self.assertEqual(second, {"port": "b", "up": False})
        self.assertEqual((first["leads"], third["leads"], third["leader"]), (1, 0, 1))
        self.assertEqual((first["members_heard"], first["reads_bundles"], first["sends_bundles"]), (2, 1, 0))
        self.assertEqual((first["watches"], first["names"]), (0, 7))
        self.assertEqual((first["state_position"], first["state_differs"], third["state_differs"]), (0, False, False))
        for name in ("members_heard", "reads_bundles", "watches", "names", "state_position"):
            self.assertNotIn(name, third)
        self.assertEqual((first["genesis"], first["program"], first["member_nodes"]), (GENESIS, "0.1.0", [1, 2, 3]))
        self.assertEqual(
            (first["executed_positions"], first["unread_datagrams_total"], first["promised_round"]), (10, 5, 3)
        )
        self.assertEqual(first["change_pending_positions"], 1)

    def test_json_is_those_bytes(self):
        status, lines = self.asks([node(1, leads=1, reach=heard(2, names=7)), silent], "--json")
        first = (
            '{"port":a,"up":true,"node":1,"program":"0.1.0","genesis":"' + GENESIS + '","leads":1,"leader":1,'
            '"leader_silence_ticks":1,"promised_round":3,"executed_positions":10,"snapshot_position":4,"members":3,'
            '"change_pending_positions":1,"waiting_requests":2,"unread_datagrams_total":5,"failed_sends_total":6,'
            '"ticks_total":100,"store_format":2,"table_version":1,"members_heard":2,"reads_bundles":1,'
            '"sends_bundles":0,"watches":0,"names":7,"state_position":0,"state_differs":false,"member_nodes":[1,2,3]}'
        )
        head = '{"cluster":5,"served":false,"one_genesis":true,"one_state":true,"members_up":1,"members":3,"nodes":['
        self.assertEqual((status, lines), (1, [head + first + ',{"port":b,"up":false}]}']))

    def test_metrics_have_a_type_and_one_value_each(self):
        leader = node(1, leads=1, leader=0, reach=heard(2, watches=4, names=461))
        status, lines = self.asks([leader, silent, node(3, reach=SENDS)], "--prometheus")
        self.assertEqual(status, 0)
        metrics = [line for line in lines if not line.startswith("#")]
        for line in metrics:
            self.assertRegex(line, r'^locks_[a-z_]+\{cluster="5"((,node="\d")?,address="127.0.0.1",port="\w")?\} \d+$')
            self.assertIn(f"# TYPE {line.partition('{')[0]} ", "\n".join(lines))
        self.assertEqual(len(metrics), len(set(line.rpartition(" ")[0] for line in metrics)))
        expected = [
            'locks_served{cluster="5"} 1',
            'locks_one_state{cluster="5"} 1',
            'locks_members_up{cluster="5"} 2',
            'locks_up{cluster="5",address="127.0.0.1",port="b"} 0',
            'locks_failed_sends_total{cluster="5",node="3",address="127.0.0.1",port="c"} 6',
            'locks_leader{cluster="5",node="1",address="127.0.0.1",port="a"} 1',
            'locks_members_heard{cluster="5",node="1",address="127.0.0.1",port="a"} 2',
            'locks_reads_bundles{cluster="5",node="3",address="127.0.0.1",port="c"} 1',
            'locks_sends_bundles{cluster="5",node="3",address="127.0.0.1",port="c"} 1',
            'locks_watches{cluster="5",node="1",address="127.0.0.1",port="a"} 4',
            'locks_names{cluster="5",node="1",address="127.0.0.1",port="a"} 461',
            'locks_state_position{cluster="5",node="1",address="127.0.0.1",port="a"} 0',
            'locks_state_differs{cluster="5",node="1",address="127.0.0.1",port="a"} 0',
        ]
        for line in expected:
            self.assertIn(line, metrics)
        self.assertNotIn('locks_members_heard{cluster="5",node="3"', "\n".join(metrics))

    def asks_machines(self, *words):
        """The port and the lines of the program where three nodes have one port, and only the first answers."""
        hosts = os.path.join(self.enterContext(tempfile.TemporaryDirectory()), "hosts")
        with open(hosts, "w", encoding="ascii") as file:
            file.write("2 127.0.0.2\n3 127.0.0.3\n")
        with Peers([node(1, leads=1)]) as peers:
            [port] = peers.ports
            targets = [f"{number}:{port}" for number in (1, 2, 3)]
            command = [PROGRAM, "status", "--cluster", "5", "--port", *targets, "--hosts", hosts, *words]
            process = subprocess.Popen(command, stdout=subprocess.PIPE, stderr=subprocess.PIPE, text=True)
            return port, peers.serve(process)[1].splitlines()

    def test_who_does_not_answer_is_named_with_its_address(self):
        port, lines = self.asks_machines()
        silent = [f"node {node}, port {port}: no answer from 127.0.0.{node}" for node in (2, 3)]
        self.assertEqual(lines[1:3], silent, lines)

    def test_nodes_at_one_port_of_several_machines_have_labels_of_their_own(self):
        port, lines = self.asks_machines("--prometheus")
        ups = [line for line in lines if line.startswith("locks_up{")]
        place = 'locks_up{{cluster="5",node="{}",address="{}",port="{}"}} {}'
        told = [(1, "127.0.0.1", port, 1), (2, "127.0.0.2", port, 0), (3, "127.0.0.3", port, 0)]
        self.assertEqual(ups, [place.format(*it) for it in told])

    def test_ready_is_waited_for(self):
        rounds = []

        def behind(probe):
            rounds.append(probe)
            return [report(2, token_of(probe), executed=10 if len(rounds) < 3 else 12)]

        answers = [node(1, leads=1, executed=12), behind, node(3, executed=13)]
        status, lines = self.asks(answers, "--until", "ready", "20")
        self.assertEqual(status, 0, lines)
        self.assertEqual(len(rounds), 3)

    def test_a_node_that_follows_nobody_is_not_ready(self):
        answers = [node(1, leads=1), node(2), node(3, leader=0)]
        self.assertEqual(self.asks(answers)[0], 0)
        self.assertEqual(self.asks(answers, "--until", "ready", "1")[0], 1)

    def test_ready_is_waited_for_no_longer_than_said(self):
        began = time.monotonic()
        self.assertEqual(self.asks([node(1, leads=1, executed=12), node(2)], "--until", "ready", "1")[0], 1)
        self.assertGreater(time.monotonic() - began, 0.9)

    def test_a_key_seals_what_is_asked_and_opens_what_is_told(self):
        key = bytes(range(32))

        def sealed(purpose, label, datagram):
            front = label + (5).to_bytes(8, "big") + bytes(32) + (7).to_bytes(4, "big")
            return b"LS\1" + purpose + hmac.new(key, front + datagram, hashlib.sha256).digest() + datagram

        def guarded(probe):
            datagram = probe[36:]
            self.assertEqual(probe, sealed(b"\2", b"locks v1 request", datagram))
            self.assertEqual(datagram[16:18], bytes([0, 7]))
            plain = report(1, token_of(datagram), leads=1, client=7)
            return [plain, sealed(b"\2", b"locks v1 request", plain), sealed(b"\3", b"locks v1 replies", plain)]

        with tempfile.NamedTemporaryFile("w") as file:
            file.write(key.hex() + "\n")
            file.flush()
            status, lines = self.asks([guarded], "--client", "7", "--client-key", file.name)
        self.assertIn("node 1, port a: leads", lines[0])
        self.assertEqual(len(self.came), 1)


if __name__ == "__main__":
    unittest.main()
