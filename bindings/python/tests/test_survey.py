"""Records with weights, clusters and strata: against the package survey of R, on its own data."""
import os
import shutil
import subprocess
import tempfile
import unittest

from causal import DataWarning, Diagram

try:
    import numpy  # noqa: F401 (the estimates need it)
    import pandas
except ImportError:
    raise unittest.SkipTest("no pandas") from None

SCRIPT = r"""
if (!requireNamespace("survey", quietly = TRUE)) quit(status = 77)
suppressMessages(library(survey))
data(api)
designs <- list(apistrat = svydesign(~1, strata = ~stype, weights = ~pw, data = apistrat), apiclus1 = svydesign(~dnum, weights = ~pw, data = apiclus1))
for (name in names(designs)) {
  held <- get(name)
  kept <- data.frame(awards = held$awards, wide = held$sch.wide, api = held$api00, pw = held$pw, stype = held$stype, dnum = held$dnum)
  write.csv(kept, paste0(name, ".csv"), row.names = FALSE)
  risk <- svyglm(I(sch.wide == "Yes") ~ awards, designs[[name]])
  mean <- svyglm(api00 ~ awards + stype, designs[[name]])
  cat(name, sprintf("%.15g", c(coef(risk)[["awardsYes"]], SE(risk)[["awardsYes"]], coef(mean)[["awardsYes"]], SE(mean)[["awardsYes"]])), "\n")
}
"""
DESIGNS = {"apistrat": {"strata": "stype"}, "apiclus1": {"clusters": "dnum"}}
WIDTH = 2 * 1.959963984540054


class AgainstSurvey(unittest.TestCase):
    """The same numbers, and the same standard errors."""

    @classmethod
    def setUpClass(cls):
        if shutil.which("Rscript") is None:
            raise unittest.SkipTest("no Rscript")
        cls.folder = tempfile.mkdtemp()
        with open(os.path.join(cls.folder, "survey.R"), "w", encoding="utf-8") as file:
            file.write(SCRIPT)
        ended = subprocess.run(["Rscript", "--vanilla", "survey.R"], cwd=cls.folder, capture_output=True, text=True, timeout=300)
        if ended.returncode == 77:
            shutil.rmtree(cls.folder)
            raise unittest.SkipTest("no package survey of R")
        told = [line.split() for line in ended.stdout.splitlines()]
        cls.wanted = {name: list(map(float, numbers)) for name, *numbers in told}

    @classmethod
    def tearDownClass(cls):
        shutil.rmtree(cls.folder)

    def data(self, name):
        return pandas.read_csv(os.path.join(self.folder, f"{name}.csv"))

    def test_risks(self):
        edge = Diagram("dag { awards [exposure] wide [outcome] awards -> wide }")
        for name, design in DESIGNS.items():
            value, error, _, _ = self.wanted[name]
            asked = {"treated": "Yes", "control": "No", "outcome": "Yes", "weights": "pw", **design}
            # (all schools with an award met their target)
            with self.assertWarnsRegex(DataWarning, r"P\(wide\|awards\): some records are told apart perfectly"):
                found = edge.estimate(self.data(name), **asked).difference
            self.assertAlmostEqual(float(found), value, delta=1e-10)
            self.assertAlmostEqual((found.interval.upper - found.interval.lower) / WIDTH, error, delta=1e-6)
            with self.assertWarnsRegex(DataWarning, "risk under treated has width 0: all of the records there has the outcome"):
                drawn = edge.contrast(self.data(name), **asked, resamples=500)
            self.assertAlmostEqual(float(drawn.difference), value, delta=1e-9)
            # percentiles of few clusters, within simulation error and their number
            self.assertLess(abs((drawn.interval.difference.upper - drawn.interval.difference.lower) / WIDTH / error - 1), 0.25)

    def test_means(self):
        diagram = Diagram("dag { awards [exposure] api [outcome] awards -> api stype -> awards stype -> api }")
        for name, design in DESIGNS.items():
            _, _, value, error = self.wanted[name]
            found = diagram.estimate(self.data(name), treated="Yes", control="No", weights="pw", **design).difference
            self.assertAlmostEqual(float(found), value, delta=1e-9)
            self.assertAlmostEqual((found.interval.upper - found.interval.lower) / WIDTH, error, delta=1e-6)


if __name__ == "__main__":
    unittest.main()
