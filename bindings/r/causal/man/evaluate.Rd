\name{evaluate}
\alias{evaluate}
\alias{print.causal_effects}
\alias{as.data.frame.causal_effects}
\alias{as.data.frame.causal_contrast}
\alias{as.data.frame.causal_means}
\alias{as.data.frame.causal_spread}
\alias{as.data.frame.causal_tests}
\title{How Large Is an Effect?}
\description{Computes the effect of \code{x} on \code{y} over a data frame, in bounds that hold or in exact fractions.}
\usage{
evaluate(diagram, data, x = NULL, y = NULL, count = NULL, exact = FALSE,
         missing = c("error", "drop", "level"), at = NULL, set = NULL,
         given = NULL, back_door = FALSE, zero = TRUE,
         short = is.null(set), weights = NULL, treated = FALSE)

\method{as.data.frame}{causal_effects}(x, ...)
}
\arguments{
  \item{diagram}{a diagram, or what \code{\link{as_causal_diagram}} takes.}
  \item{data}{a data frame with a column for each vertex that the formula, \code{x}, \code{y} or \code{given} names; other columns
    don't matter. Or a contingency table (class \code{table}), a table of a database, as \code{\link{database_table}} gives it, or a lazy
    table of the package \pkg{dplyr}.}
  \item{x, y}{names of the exposures and of the outcomes; \code{NULL} for the vertices with these marks. In the method \code{x} is
    an answer.}
  \item{count}{the name of the column of counts, which is no variable of the formula; \code{NULL} where each row is one record. A count is
    a frequency: a row with the count 7 stands for seven records. Weights of a survey are no counts, and make intervals much too narrow if
    they are taken for such; they are given as \code{weights}.}
  \item{weights}{the name of a column of weights, which say for how many of the population a record stands. The value is that of the
    weights as whole numbers with a sum of about 10^12.}
  \item{exact}{whether exact fractions are given, as text.}
  \item{missing}{what is done where a column that the effect needs has a missing value: \code{"error"} is an error of the class
    \code{causal_missing_values} with the \code{rows}; \code{"drop"} leaves the row out, and the answer says how many records
    that are. Leaving them out is right only where what is missing is missing completely at random. \code{"level"} makes missing a level
    of its own.}
  \item{...}{not used.}
  \item{set}{names of vertices to adjust for, in place of the formula of \code{\link{identify_effect}}. A set that can't be adjusted
    for (\code{\link{adjusts}}) is an error.}
  \item{given}{names of vertices: the effect is that among those with the same values of these, by the formula of
    \code{\link{identify_effect}}. Or a list of levels by name, as \code{list(S = "small")}, where one level is wanted.}
  \item{back_door}{whether the set has to meet the back-door criterion.}
  \item{zero}{whether a product with a factor 0 is 0 whatever its other factors are, also where one of them has a condition that no
    record has. Where there is a value without it, it is the same; so it is the default.}
  \item{short}{whether the formula is the one that \code{\link{identify_effect}} gives with \code{short}, also with \code{given};
    it goes with no \code{set}. It is the default, since it is the formula that analysts expect and that asks for the fewest
    combinations of levels.}
  \item{treated}{whether the effect is that among those for whom each level of \code{x} was observed, by the formula of
    \code{\link{treated_effect}}. It goes with no \code{set}, and \code{zero} and \code{short} don't matter.}
  \item{at}{the levels at which the formula's free variables are pinned, as \code{list(Z = 1)}; the first in order by default.}
}
\details{
  Each distinct value of a column is a level, so columns with many numbers have to be cut to a few classes first
  (\code{\link{cut}}). Factors have the order of their levels, without those that don't occur but for outcomes, of
  which a declared level without a record has the value 0; text is taken in order of first
  appearance; numbers, truth values and dates are sorted. The answer has the values of the data, with their type.

  Where the formula has a free variable it is pinned at its first level in order (numbers by size, text by its characters, factors
  by their levels), or at the one that \code{at} gives; the answer says which. Over a model's own probabilities every level gives
  the same; over data they differ by chance, and \code{\link{pin_spread}} shows by how much.

  With \code{short} the formula often reads fewer columns, and asks for fewer combinations of levels that have a record. In the
  population its value is the same; over a sample it may be another, and one formula may have a value where the other has none.

  With \code{zero} a sum over a set is one over its strata that occur. Where all combinations of levels are more than a formula reads
  (2^20), the set is one variable with these strata as its levels, and a note says so; what is proved then is of that variable's formula.

  \strong{What is proved}, of each value: it is the value of the formula of \code{\link{identify_effect}}, or of that of the set,
  over the counts that the library was given (the fraction exactly; the bounds enclose it), where the formula has one without \code{zero}; where it hasn't, it is the formula's
  value by that rule. And it equals the effect, or its bounds enclose it, in each
  positive model that fits the diagram and that the counts match. \strong{What is only computed} or tested: that the data frame
  became these counts, and \code{estimate}, the nearest number of R.

  With \code{treated} the answer has a further column for each vertex of \code{x}, under its name with a prime: the level that was
  observed. It is proved alike that the value is that of the formula, and that it covers the effect among these. Where there is no formula,
  but the joint effect of the only exposure has one, and the exposure has at most two levels in the data, values are a difference: the
  joint effect less what was observed, over the share of those who had the other level. Each such model's effect is enclosed by their
  bounds then; the answer says so, and its attribute \code{split} does. Where a value would be below 0, no model of the diagram has these
  counts, which is proved, and the answer is an error of the class \code{causal_no_model}, whose \code{less} has the levels at which the
  effect is less than what was observed of it. A sample may have such counts by chance. With more than two levels there is an error of the
  class \code{causal_not_identifiable}.

  A value is a plug-in value: it says nothing about its sampling error. See \code{\link{contrast}} for intervals.

  A cell that no record supports is an error of the class \code{causal_evaluation_fault} with its \code{cell}, and with the
  \code{condition} that no record has; its message says what may help. \code{\link{support}} shows where records lack. An effect that
  isn't identifiable is one of the class \code{causal_not_identifiable} with its \code{hedge}.
}
\value{
  A data frame of the class \code{causal_effects}: a column for each vertex of \code{x}, \code{given} and \code{y}, then \code{estimate}, and
  \code{fraction} or the bounds \code{from} and \code{to} of 18 digits as text. A vertex with one of these names keeps it, and
  the computed column gets a number. The attribute \code{pinned} is a list of the pinned levels, and \code{dropped} the number
  of records left out. \code{value} is an old name of \code{estimate}, which warns. \code{as.data.frame} gives a plain data frame of it, and of the other answers over data: a row for each cell,
  without what the values rest on.
}
\examples{
diagram <- causal_diagram("dag { T [exposure] R [outcome] S -> T S -> R T -> R }")
evaluate(diagram, kidney_stones, count = "count")
evaluate(diagram, kidney_stones, count = "count", exact = TRUE)
evaluate(diagram, kidney_stones, count = "count", given = "S")

# Those who got B would have succeeded with A in 33753 of 38135
evaluate(diagram, kidney_stones, count = "count", treated = TRUE, exact = TRUE)

# There is no formula here, and two levels of X give values
cells <- expand.grid(W = 0:1, Z = 0:1, X = 0:1, Y = 0:1)
evaluate("dag { W -> Z -> X -> Y W <-> X W <-> Y }", cells, "X", "Y", treated = TRUE, exact = TRUE)

# The short formula reads no column of the weight
births <- causal_diagram("dag { smoking [exposure] death [outcome]
  smoking -> weight -> death <- smoking  weight <-> death }")
deaths <- data.frame(smoking = c("yes", "yes", "no", "no"), death = c("yes", "no"),
                     n = c(16, 984, 9, 991))
evaluate(births, deaths, count = "n", short = TRUE)
}
