"""Jobs as JSON that fits into an item."""
import json
import math
import pickle
import unittest

from context import Case, rv, session
from rendezvous import jobs
from scripted import Scripted, reply, welcome

# How many bytes an item has at most, and those of a job's text beside the characters in it.
MOST, BESIDE = 512, len('{"a":""}')


class Texts(Case):
    """The text of a job."""

    def test_what_it_is(self):
        """Compact, in UTF-8 as it is, and read as what it was made of."""
        for job, text in (({"do": "resize", "width": 640}, '{"do":"resize","width":640}'),
                          (["ä", None, True, 1.5], '["ä",null,true,1.5]'), ("a\n", '"a\\n"'), ({}, "{}"), (7, "7")):
            self.assertEqual((jobs.text(job), json.loads(jobs.text(job))), (text, job))

    def test_how_long_it_may_be(self):
        """As long as an item: it is told by how many bytes it is longer, whatever has these."""
        for character, size in (("a", 1), ("ä", 2), ("€", 3), ("😀", 4)):
            count, left = divmod(MOST - BESIDE, size)
            whole = character * count + "b" * left
            self.assertEqual(len(jobs.text({"a": whole}).encode()), MOST)
            for more in (1, 2, 1000):
                with self.raises(jobs.TooLong, excess=more * size) as told:
                    jobs.text({"a": whole + more * character})
                self.assertEqual(str(told.raised), f"the job is {more * size} bytes too long: an item has at most {MOST}")

    def test_what_is_none(self):
        """What JSON or UTF-8 has not."""
        loop = []
        loop.append(loop)
        for job, raises in ((object(), TypeError), ({1, 2}, TypeError), (b"a", TypeError), ({(1, 2): 3}, TypeError),
                            (math.nan, ValueError), ([math.inf], ValueError), ("\ud800", ValueError), (loop, ValueError)):
            with self.subTest(job=type(job).__name__), self.raises(raises) as told:
                jobs.text(job)
            self.assertNotIsInstance(told.raised, jobs.TooLong)

    def test_in_a_pickle(self):
        """It says the same."""
        there = pickle.loads(pickle.dumps(jobs.TooLong(7)))
        self.assertEqual((type(there), there.excess, str(there)), (jobs.TooLong, 7, str(jobs.TooLong(7))))

    def test_a_hand_over(self):
        """The longest one is an item."""
        longest = jobs.text({"a": "b" * (MOST - BESIDE)})
        with Scripted(welcome, reply("received")) as server, session(server, version=1) as one:
            self.assertIsInstance(one.transfer(3, longest), rv.Receipt)
            self.assertEqual(server.heard[1]["item"], longest)


if __name__ == "__main__":
    unittest.main()
