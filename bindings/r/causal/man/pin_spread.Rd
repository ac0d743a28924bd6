\name{pin_spread}
\alias{pin_spread}
\alias{print.causal_spread}
\title{Does Each Level of a Pinned Variable Give the Same?}
\description{
  Gives the effect at each level at which the formula's free variables may be pinned. In the population all of them are the same
  where the diagram is right: so this is a check of the diagram.
}
\usage{
pin_spread(diagram, data, x = NULL, y = NULL, count = NULL,
           exact = FALSE, missing = c("error", "drop", "level"),
           given = NULL, zero = TRUE, short = FALSE)

\method{print}{causal_spread}(x, ...)
}
\arguments{
  \item{diagram, data, x, y, count, exact, missing, given, zero}{as in \code{\link{evaluate}}; in the method \code{x} is an answer.}
  \item{short}{whether the formula is the short one, which may read fewer variables; by default it is that of \code{\link{identify_effect}}.}
  \item{...}{passed on to \code{\link{print.data.frame}}.}
}
\details{
  Proved is each value, as \code{\link{evaluate}} says. Over the counts of a sample the values differ by chance; where they differ
  by more than the intervals of \code{\link{contrast}} let expect, the data speak against the diagram. How far they are apart at
  most is printed, and only computed.
}
\value{
  A data frame of the class \code{causal_spread} with the columns of \code{\link{evaluate}} behind one for each free variable.
  Attributes: \code{free}, the names of these variables; \code{without_value}, a list of the levels at which some cell has no
  support; and \code{dropped}.
}
\examples{
napkin <- causal_diagram("dag { X [exposure] Y [outcome]
  W -> Z -> X -> Y  W <-> X  W <-> Y }")
cells <- expand.grid(W = 0:1, Z = 0:1, X = 0:1, Y = 0:1)
cells$n <- c(8, 3, 4, 9, 5, 7, 6, 8, 3, 4, 7, 5, 9, 6, 2, 7)
pin_spread(napkin, cells, count = "n")
evaluate(napkin, cells, count = "n", at = list(Z = 1))
}
