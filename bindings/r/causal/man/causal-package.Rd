\name{causal-package}
\alias{causal-package}
\alias{causal}
\docType{package}
\title{Proved Answers on Causal Diagrams}
\description{
  The package asks the program \command{causal}, which runs inside the R process, what a causal diagram with hidden confounders
  implies. The program was proved to meet its contract, so each answer is the right one for the diagram that was given.
}
\details{
  A diagram (\code{\link{causal_diagram}}) is asked whether sets of vertices are separated (\code{\link{separated}}), whether a rule
  of do-calculus applies (\code{\link{rule_holds}}), whether an effect can be computed from observations
  (\code{\link{identify_effect}}; among the treated \code{\link{treated_effect}}, with mediators held \code{\link{natural_effect}}) or from experiments on other variables (\code{\link{surrogate}}), whether somebody's derivation is
  right (\code{\link{check_certificate}}), what stands there after each step (\code{\link{steps}}), what may be adjusted for (\code{\link{adjustment_sets}}, \code{\link{adjusts}}), which vertices are
  instruments (\code{\link{instruments}}), what it implies of data (\code{\link{implications}}), and whether it implies the same as another (\code{\link{equivalent}}). Over a data frame
  \code{\link{evaluate}} gives the value of an effect, \code{\link{bounds_effect}} what is known of one that has no formula,
  \code{\link{mediate}} natural direct and indirect effects, \code{\link{pin_spread}} its values where a variable may be pinned at any
  level, \code{\link{contrast}} differences and ratios of effects and \code{\link{effect_means}} means of a numeric outcome, with
  intervals, and \code{\link{test_implications}} tests of what the diagram implies. The data may stay in a database
  (\code{\link{database_table}}). \code{\link{support}} shows where records lack; there \code{\link{estimate}} fills in by models, which are never
  proved, \code{\link{e_value}} and \code{\link{compare}} say how sensitive an answer is, and \code{\link{report}} writes all of it. Answers become plain data frames by \code{tidy} and \code{glance} (\code{\link{tidy.causal_answer}}),
  and drawings of \pkg{ggplot2} by \code{autoplot} (\code{\link{autoplot.causal_diagram}}).

  \strong{What is proved, and what isn't.} The status, the answer and the line that the library gives for its words and inputs
  are proved. This package hands it text and reads the JSON of its answers; that, the drawings, and all arithmetic with R's
  numbers (\code{estimate} columns, contrasts, means, intervals and tests) are only tested. An answer holds for the diagram: nothing can say
  whether the diagram is right.

  Sets are character vectors. Where \code{x}, \code{y} or \code{given} is \code{NULL} the marks of the diagram count:
  \code{exposure}, \code{outcome} and \code{adjusted}. \code{character()} is the empty set. Vertices marked \code{latent} are
  projected away before each question.

  A refusal is a condition of the class \code{causal_refusal}; see \code{\link{causal_fault}}.
}
\seealso{\code{vignette("causal")} goes from a diagram to an interval.}
\keyword{package}
