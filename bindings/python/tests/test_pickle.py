"""Answers, diagrams and exceptions go to other processes and come back."""
import copy
import inspect
import pickle
import unittest

from worked import read_example

import causal
from causal import Diagram, errors

BOW = Diagram(read_example("bow.dag"))
KIDNEY = Diagram(read_example("kidney_stones.dag"))
DATA = {"S": [0, 0, 1, 1] * 6, "T": [0, 1] * 12, "R": ([0, 1, 1] * 8)}


def raised(ask):
    """What a question raises."""
    try:
        ask()
    except causal.CausalError as error:
        return error
    raise AssertionError("nothing was raised")


class Answers(unittest.TestCase):
    """Each kind of answer."""

    def again(self, answer):
        for protocol in range(2, pickle.HIGHEST_PROTOCOL + 1):
            other = pickle.loads(pickle.dumps(answer, protocol))
            self.assertEqual(other, answer)
            self.assertEqual(str(other), str(answer))
        self.assertEqual(copy.deepcopy(answer), answer)
        return other

    def test_formula(self):
        formula = KIDNEY.identify()
        other = self.again(formula)
        self.assertEqual((other.latex, other.printed_latex, other.certificate), (formula.latex, formula.printed_latex, formula.certificate))
        self.assertTrue(KIDNEY.check_certificate(other))

    def test_hedge(self):
        hedge = BOW.identify()
        other = self.again(hedge)
        self.assertEqual((other.certificate, other.probabilities), (hedge.certificate, hedge.probabilities))

    def test_effects(self):
        effects = KIDNEY.effects(DATA)
        self.again(effects)
        self.again(effects.contrast({"R": 1}, {"T": 1}, {"T": 0}))
        self.again(KIDNEY.bootstrap(DATA, resamples=5))

    def test_other_answers(self):
        napkin = Diagram(read_example("napkin.dag"))
        self.again(napkin)
        self.again(napkin.separated())
        self.again(napkin.rule_holds(2, "Y", "X"))
        self.again(napkin.adjustment_sets())
        self.again(napkin.instruments())
        self.again(napkin.adjusts("W"))
        self.again(napkin.check_certificate(napkin.identify()))
        self.again(napkin.implications())
        self.again(napkin.surrogate(experiments="Z"))
        self.again(KIDNEY.equivalent(KIDNEY))

    def test_a_diagram_that_was_asked(self):
        self.assertTrue(BOW.is_separated("X", "Y") is False and self.again(BOW).is_separated("X", "Y") is False)


class Exceptions(unittest.TestCase):
    """Each exception keeps what it says."""

    def again(self, error):
        other = pickle.loads(pickle.dumps(error))
        self.assertIs(type(other), type(error))
        self.assertEqual(str(other), str(error))
        for name in ("sentence", "number", "place", "excerpt", "printed", "stage", "args"):
            self.assertEqual(getattr(other, name), getattr(error, name))

    def test_raised(self):
        graph = raised(lambda: Diagram("dag {\n a -- b }"))
        second = raised(lambda: BOW.equivalent(Diagram("dag { X -> Z }")))
        found = [
            graph,
            second,
            raised(lambda: BOW.identify("X", "Q")),
            raised(lambda: BOW.check_certificate("{}")),
            raised(lambda: BOW.effects(DATA)),
            raised(lambda: KIDNEY.effects({"S": []})),
            raised(lambda: KIDNEY.effects({**DATA, "S": [None, *DATA["S"][1:]]})),
            raised(lambda: KIDNEY.effects({**DATA, "T": DATA["S"]})),
            raised(lambda: KIDNEY.effects(DATA, missing="skip")),
        ]
        for error in found:
            with self.subTest(type(error).__name__):
                self.again(error)
        self.assertEqual(graph.place.line, 2)

    def test_each_class(self):
        kinds = [kind for _, kind in inspect.getmembers(errors, inspect.isclass) if issubclass(kind, causal.CausalError)]
        self.assertGreater(len(kinds), 9)
        for kind in kinds:
            with self.subTest(kind.__name__):
                self.again(kind("a sentence", 3, ("X",), "the line", "causal: ..."))


if __name__ == "__main__":
    unittest.main()
