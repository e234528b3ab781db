"""What every public name owes: a docstring; and an error, that it can be copied and pickled."""
import copy
import inspect
import math
import pickle
import unittest

import locks_client
from locks_client import Client, errors
from locks_client.wire import table_op

MADE = {
    "Busy": (8, 3),
    "Changed": ("/state",),
    "Forked": (1, 2),
    "InUse": ("/state",),
    "OtherAnswer": ("released", "acquire"),
    "Passed": (9,),
    "StateError": ("/state", "it is not there"),
}

PLAIN = (errors.LocksError, errors.Misnumbered, errors.Refused, errors.Unknown)  # which say what their makers say


def methods(public):
    """The public methods of a class."""
    named = vars(public).items() if inspect.isclass(public) else ()
    return [it for name, it in named if not name.startswith("_") and callable(it)]


class ErrorsTest(unittest.TestCase):
    def all(self):
        """One of each error."""
        kinds = [it for it in vars(errors).values() if inspect.isclass(it) and issubclass(it, errors.LocksError)]
        return [kind(*MADE.get(kind.__name__, ())) for kind in kinds]

    def test_errors_are_copied_and_pickled(self):
        for error in self.all():
            for other in (copy.copy(error), copy.deepcopy(error), pickle.loads(pickle.dumps(error))):
                with self.subTest(error=error):
                    self.assertEqual((type(other), str(other), vars(other)), (type(error), str(error), vars(error)))

    def test_errors_say_what_they_are(self):
        self.assertEqual(str(errors.Busy(8, 3)), "busy 8 3")
        self.assertEqual(errors.Passed(9).brief, "passed 9")
        self.assertEqual(errors.NoAnswer().brief, "no answer")
        self.assertEqual(errors.NotMember().brief, "not a member")

    def test_a_text_names_the_lock_the_fence_and_the_remedy(self):
        asked = table_op("acquire", "db"), 5, 7, True
        released = table_op("release", "db", 3), 5, 7, True
        rows = [
            (errors.Busy(8, 3), asked, "client 8 holds db at fence 3; give a longer wait, or break_lock('db', 3)"),
            (errors.Busy(7, 3), asked, "by another call or an earlier run; once nothing of that runs, release("),
            (errors.NotHeld(), released, "client 7 does not hold db at fence 3; it was released or broken before"),
            (errors.NoAnswer(), asked, "acquire of db may have taken effect, or still may; call again(), withdraw("),
            (errors.NoAnswer(), released, "release of db at fence 3 may have taken effect, or still may; call again()"),
            (errors.Passed(9), asked, "whether the acquire of db took effect is unknown; another process uses"),
            (errors.Passed(9), released, "continue above it: skip_to(1000009), or first=1000009 in a new run"),
            (errors.Passed(2**48), asked, "no number above it may be sent: use another client number"),
            (errors.OtherAnswer("released", "acquire"), asked, "the answer to the acquire of db is not believed"),
            (errors.NoRoom(), asked, "the acquire of db needs a place, and the table has 512 other names"),
            (errors.Bad(), asked, "the acquire of db needs a raised table: call raise_table()"),
            (errors.Spent(), asked, "the fence of db is 2^48, so it is never granted again: use another name"),
        ]
        for error, about, text in rows:
            error.about(*about)
            with self.subTest(error=error):
                self.assertTrue(str(error).startswith(error.brief))
                self.assertIn(text, str(error))

    def test_each_refusal_says_what_helps(self):
        for error in self.all():
            if not isinstance(error, (errors.Busy, errors.NotHeld)) and type(error) not in PLAIN:
                with self.subTest(error=error):
                    self.assertRegex(str(error), "[:;]")

    def test_what_is_no_name_and_no_time_is_refused(self):
        with Client(5, 7, [1], first=1) as client:
            client.perform = lambda effect: self.fail("it asks")
            for name in (None, 5, b"db"):
                with self.subTest(name=name), self.assertRaisesRegex(TypeError, "must be a str of 1 to 32"):
                    client.acquire(name)
            for call in (lambda: client.acquire("db", math.nan), lambda: setattr(client, "patience", math.nan)):
                with self.assertRaisesRegex(ValueError, "nan: must be a number of seconds"):
                    call()
            with self.assertRaisesRegex(TypeError, "'5': must be a number of seconds"):
                client.acquire("db", wait="5")
            self.assertEqual((client.is_open, client.core.last), (False, None))
        with self.assertRaisesRegex(ValueError, "invalid patience nan"):
            Client(5, 7, [1], first=1, patience=math.nan)

    def test_each_public_name_is_there_and_has_a_docstring(self):
        for name in locks_client.__all__:
            public = getattr(locks_client, name)
            for it in [public, *methods(public)]:
                with self.subTest(name=name, of=it):
                    self.assertTrue(inspect.getdoc(it))


if __name__ == "__main__":
    unittest.main()
