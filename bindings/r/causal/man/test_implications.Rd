\name{test_implications}
\alias{test_implications}
\alias{print.causal_tests}
\alias{plot.causal_tests}
\title{Are Data Far from What a Diagram Implies?}
\description{
  Tests each independence that a diagram implies over data: by G squared and the chi-squared distribution, or by permutations
  where the tables are too thin.
}
\usage{
test_implications(diagram, data, count = NULL,
                  method = c("auto", "chi-squared", "permutation"),
                  permutations = 1000, seed = 0,
                  missing = c("error", "drop", "level"), progress = NULL)

\method{print}{causal_tests}(x, digits = 3, ...)
\method{plot}{causal_tests}(x, ...)
}
\arguments{
  \item{diagram, data, count, missing}{as in \code{\link{implications}}.}
  \item{method}{how p-values are found: by the chi-squared distribution, by permutations, or by the one or the other as the table
    allows.}
  \item{permutations}{how many tables are drawn.}
  \item{seed}{a seed for this computation alone; \code{NULL} draws one.}
  \item{progress}{as in \code{\link{contrast}}; a pair at a time.}
  \item{x}{an answer.}
  \item{digits, ...}{passed on to \code{\link{print.data.frame}}, or to \code{\link{title}}.}
}
\details{
  The pairs and their sets are those of \code{\link{implications}}, and proved; the tests are only computed. For each pair G squared
  is summed over the levels of its set, and so are its degrees of freedom, over the rows and columns with records. By
  \code{"auto"} a pair is tested by permutations where more than a fifth of its cells is expected to have fewer than 5 records, or
  one fewer than 1. A permutation pairs the records of each level of the set by chance (\code{\link{r2dtable}}).

  Where a variable has nearly a level for each record (more than 10, and more than one for five records) no table could be far from
  independence: then there is no test, and \code{note} says so. Cut such a column to a few classes (\code{\link{cut}}). A test with more than
  a degree of freedom for four records is noted as thin.

  A small value says that the data have a dependence that the diagram excludes. A large one says nothing for the diagram: others
  imply the same, and small samples show little.
}
\value{
  A data frame of the class \code{causal_tests} with a row for each pair: \code{a}, \code{b} and \code{given}, as in
  \code{\link{implications}}; \code{statistic}, G squared, and \code{df}; \code{p_value}, and \code{p_holm} after Holm's correction;
  \code{effect_size}, Cramer's V over the levels of the set, 0 where the counts are independent and 1 where the one variable tells the
  other; \code{method}; \code{largest_difference}, the largest difference as a probability: how far the part of the records that a cell has is
  from the one that the independence gives it, at most; and \code{rmsea}, the root mean square error of approximation, with the ends
  of its interval of 95\%, \code{rmsea_low} and \code{rmsea_high}, by the noncentral chi-squared distribution (in thin tables it says
  little). \code{plot} draws these intervals. Where no level of the set has two levels of both variables \code{p_value} is \code{NA}. \code{note} says what speaks
  against reading a row. \code{p}, \code{effect}, \code{largest}, \code{rmsea_lower} and \code{rmsea_upper} are old names, which warn. Attributes:
  \code{permutations}, \code{seed} and \code{dropped}.
}
\seealso{\code{\link{implications}}}
\examples{
fork <- causal_diagram("dag { A <- B -> C }")
counts <- data.frame(expand.grid(C = 0:1, A = 0:1, B = 0:1),
                     n = c(40, 22, 25, 19, 18, 33, 24, 41))
test_implications(fork, counts, count = "n")
}
