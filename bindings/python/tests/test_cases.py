"""Every worked case through the library: as words over inputs, and as a question to a diagram."""
import os
import re
import tempfile
import threading
import unittest

from worked import all_cases, asks_nested, cases_in_text, in_bounds

import causal
from causal.bounds import BoundsQuestion
from causal.evaluation import Evaluation

LISTS = ("x", "y", "z", "do", "given", "set", "instrument", "strata", "through")


def names_of(word):
    """The names that a word lists, which may stand between braces."""
    if word == "{}":
        return []
    if word.startswith("{") and word.endswith("}"):
        word = word[1:-1]
    return [quoted or bare for quoted, bare in re.findall(r'(?:^|,)(?:"([^"]*)"|([^,]*))', word)]


def experiments_of(word):
    """The lists that a word joins by semicolons; one between quotes doesn't."""
    return [names_of(it) for it in re.findall(r'(?:"[^"]*"|[^";])+', word)]


def options_of(words):
    """The positional words and the options of a command."""
    places, options, rest = [], {}, list(words)
    while rest:
        word = rest.pop(0)
        if not word.startswith("--"):
            places.append(word)
        elif word in ("--project", "--certificate", "--latex", "--short", "--exact", "--back-door", "--models", "--zero", "--treated"):
            options[word[2:]] = True
        else:
            name, _, value = word[2:].partition("=")
            options[name] = value or rest.pop(0)
    if "experiments" in options:
        options["experiments"] = experiments_of(options["experiments"])
    return places, {name: names_of(value) if name in LISTS else value for name, value in options.items()}


def with_number(options):
    """The options, with how many sets are wanted as a number."""
    return {name: int(value) if name == "most" else value for name, value in options.items()}


class Words(unittest.TestCase):
    """`run` gives what the program prints."""

    def check_case(self, case):
        reply = causal.run(case.words, case.inputs)
        self.assertEqual((reply.status, reply.out.decode(), reply.err.decode()), (case.status, case.out, case.err))

    def test_cases(self):
        number = 0
        for case in all_cases(objects=True):
            if not case.fails:
                number += 1
                with self.subTest(case.name):
                    self.check_case(case)
        self.assertGreater(number, 180)

    def test_six_threads_at_once(self):
        cases = [case for case in all_cases(objects=True) if not case.fails and sum(map(len, case.inputs.values())) < 1 << 20]
        wrong = []

        def ask(start):
            for case in cases[start:] + cases[:start]:
                reply = causal.run(case.words, case.inputs)
                if (reply.status, reply.out.decode(), reply.err.decode()) != (case.status, case.out, case.err):
                    wrong.append(case.name)

        threads = [threading.Thread(target=ask, args=(30 * k,)) for k in range(6)]
        for thread in threads:
            thread.start()
        for thread in threads:
            thread.join()
        self.assertEqual(wrong, [])


class Questions(unittest.TestCase):
    """A diagram's answers print what the program prints, and its refusals are the program's."""

    def ask(self, case, folder):
        places, options = options_of(case.words[1:])
        diagram = causal.Diagram(case.inputs[places[0]])
        second = case.inputs.get(places[1]) if len(places) > 1 else None
        return getattr(self, f"ask_{case.words[0]}")(diagram, second, options, folder)

    def with_exposures(self, diagram, options):
        """The options, with the empty set where no exposure is asked about: the package wants it said."""
        return options if "x" in options or "exposure" in diagram.roles.values() else {**options, "x": []}

    def ask_graph(self, diagram, second, options, folder):
        return diagram.project() if options else diagram

    def ask_separate(self, diagram, second, options, folder):
        return diagram.separated(**options)

    def ask_rule(self, diagram, second, options, folder):
        return diagram.rule_holds(int(options.pop("rule")), **options)

    def ask_identify(self, diagram, second, options, folder):
        form = [options.pop(name) and name for name in ("latex", "certificate") if name in options]
        answer = diagram.identify(**self.with_exposures(diagram, options))
        name = {"latex": "printed_latex"}.get(form[0], form[0]) if form else ""
        return getattr(answer, name) if form and hasattr(answer, name) else answer

    def ask_check(self, diagram, second, options, folder):
        return diagram.check_certificate(second, **options)

    def ask_steps(self, diagram, second, options, folder):
        return diagram.steps(second, **options)

    def ask_adjust(self, diagram, second, options, folder):
        if "set" not in options:
            return diagram.adjustment_sets(**with_number(options))
        options.pop("most", None)
        back_door = options.pop("back-door", False)
        return diagram.adjusts(options.pop("set"), back_door=back_door, **options)

    def ask_equivalent(self, diagram, second, options, folder):
        return diagram.equivalent(causal.Diagram(second) if second is not None else diagram, **options)

    def ask_surrogate(self, diagram, second, options, folder):
        options = self.with_exposures(diagram, options)
        wants_certificate = options.pop("certificate", False)
        if not wants_certificate:
            return diagram.surrogate(**options)
        answer = diagram.surrogate(models=True, **options)
        return getattr(answer, "certificate", None) or diagram.surrogate(**options)

    def ask_treated(self, diagram, second, options, folder):
        is_latex, is_certified = options.pop("latex", False), options.pop("certificate", False)
        answer = diagram.treated(**self.with_exposures(diagram, options))
        if is_certified and answer:
            return answer.certificate
        return answer.printed_latex if is_latex and answer else answer

    def ask_natural(self, diagram, second, options, folder):
        is_latex, is_certified = options.pop("latex", False), options.pop("certificate", False)
        answer = diagram.natural(**self.with_exposures(diagram, options))
        if is_certified and answer:
            return answer.certificate
        return answer.printed_latex if is_latex and answer else answer

    def ask_instruments(self, diagram, second, options, folder):
        return diagram.instruments(**with_number(options))

    def ask_bounds(self, diagram, second, options, folder):
        return BoundsQuestion(diagram, **self.with_exposures(diagram, options)).over_file(second or b"")

    def file_of(self, second, folder):
        path = os.path.join(folder, "counts.csv")
        with open(path, "wb") as file:
            file.write(second or b"")
        return path

    def ask_implications(self, diagram, second, options, folder):
        return diagram.implications(None if second is None else self.file_of(second, folder), **options)

    def ask_evaluate(self, diagram, second, options, folder):
        try:
            exact = options.pop("exact", False)
            options = {name.replace("-", "_"): value for name, value in self.with_exposures(diagram, options).items()}
            return Evaluation(diagram, **{"x": None, "y": None, "zero": False, "short": False, **options}).over_file(second or b"", exact).text
        except (causal.NoModelError, causal.NotIdentifiable, causal.RequestError) as error:
            return error.place

    def test_questions(self):
        number = 0
        with tempfile.TemporaryDirectory() as folder:
            for case in cases_in_text():
                if case.words[:1] == ["survey"] or "--matched" in case.words or case.status in (2, 6) or self.is_refused_before(case):
                    continue
                if asks_nested(case):
                    continue
                number += 1
                with self.subTest(case.name):
                    self.assertEqual(self.answer(case, folder), case.printed)
        self.assertGreater(number, 150)

    def is_refused_before(self, case):
        """Whether the second graph, which the program doesn't come to, is refused where it becomes a diagram."""
        if case.words[:1] != ["equivalent"] or case.status != 3:
            return False
        try:
            causal.Diagram(case.inputs.get(case.words[2], b"dag{}"))
        except causal.CausalError:
            return True
        return False

    def answer(self, case, folder):
        try:
            printed = f"{self.ask(case, folder)}\n"
        except causal.CausalError as error:
            return error.printed.replace("causal: graph", "causal: second graph" if case.status == 4 else "causal: graph") + "\n"
        return printed if "--exact" in case.words else in_bounds(printed)


if __name__ == "__main__":
    unittest.main()
