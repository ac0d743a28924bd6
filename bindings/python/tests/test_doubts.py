"""Warnings of what may be a typing error. A text may be refused by the library, or read: then it is warned of."""
import copy
import pickle
import unittest
import warnings

import causal
from causal import Diagram


def doubts(text):
    """What is warned of, or None where the text is refused."""
    with warnings.catch_warnings(record=True) as caught:
        warnings.simplefilter("always")
        try:
            Diagram(text)
        except causal.DiagramError:
            return None
    return [str(it.message) for it in caught if issubclass(it.category, causal.DiagramWarning)]


class Doubts(unittest.TestCase):
    """What is warned of."""

    def test_statements_that_are_dropped(self):
        for text in (
            "dag { X [exposure] Y [outcome] Z -> X Z => Y X -> Y }",
            "dag { X = -> Y }",
            "dag { X =--> Y }",
            "dag { A -> B C => D E -> F }",
            "dag { X = { Y }",
        ):
            found = doubts(text)
            if found is not None:
                self.assertEqual(len([it for it in found if "was dropped" in it]), 1, text)
        self.assertRegex(doubts('dag { X -> Y\n  "a b" = "1 ] = 2" }')[0], "'\"a b\" = .* at line 2, column 3 says nothing")
        self.assertEqual(len(doubts("dag { a=1;b=2 c =3 }")), 3)

    def test_what_is_in_its_place(self):
        for text in (
            'dag { bb="0,0,1,1" X [pos="1,2"] X -> Y }',
            'dag {\r\nbb = "0,0,1,1"\r\nX [exposure,pos="-1.2,0.5"]\r\nX -> Y [pos="0,1" curve=2]\r\n}\r\n',
            "dag { bb=0 X }",
            'dag { "bb"="0" "a=b" -> "c [" "] = 3" }',
            "dag { + -> Y }",
            "dag { x* + }".replace("+", "1"),
        ):
            self.assertEqual(doubts(text), [], text)

    def test_names_of_signs(self):
        for name in ("\u2192", "+", "!&"):
            found = doubts(f"dag {{ X {name} Y }}")
            if found is not None:
                self.assertEqual(len(found), 1)
                self.assertIn(f"{name} has no edge", found[0].replace('"', ""))
        self.assertEqual(len(doubts('dag { "--" "=" X }')), 2)

    def test_where_the_warning_points(self):
        with warnings.catch_warnings(record=True) as caught:
            warnings.simplefilter("always")
            diagram = Diagram("dag { X=1 Y }")
        self.assertEqual([it.filename for it in caught], [__file__])
        with warnings.catch_warnings():
            warnings.simplefilter("error")
            self.assertEqual(diagram.project(), pickle.loads(pickle.dumps(diagram)))
            self.assertEqual(copy.deepcopy(diagram), diagram)


if __name__ == "__main__":
    unittest.main()
