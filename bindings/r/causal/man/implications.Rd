\name{implications}
\alias{implications}
\alias{print.causal_implications}
\alias{as.data.frame.causal_implications}
\title{What Does a Diagram Imply of Data?}
\description{
  Lists the pairs of variables that a diagram has independent given some set, and over a data frame how far the counts are from
  each of these independences.
}
\usage{
implications(diagram, data = NULL, count = NULL,
             missing = c("error", "drop", "level"))

\method{print}{causal_implications}(x, ...)
\method{as.data.frame}{causal_implications}(x, ...)
}
\arguments{
  \item{diagram}{a diagram, or what \code{\link{as_causal_diagram}} takes.}
  \item{data}{\code{NULL}, or a data frame, a contingency table or a \code{\link{database_table}} with a column for each vertex of a pair or of its set; other
    columns don't matter.}
  \item{count, missing}{as in \code{\link{evaluate}}.}
  \item{x}{an answer.}
  \item{...}{handed on to \code{\link{print.data.frame}}.}
}
\details{
  Proved: the pairs are exactly those that some set of other vertices separates, each once, and the two are independent given
  their set in every finite model that fits the diagram. The difference at levels of \eqn{a}, \eqn{b} and of the set \eqn{w} is
  \eqn{N(a,b,w) N(w) - N(a,w) N(b,w)}, where \eqn{N} counts records; the one that is given is the largest in size, the first where
  several are, and it is 0 where a model that fits the diagram matches the counts.

  A difference is no test: the counts of a sample differ from independence by chance. \code{\link{test_implications}} tests it.
}
\value{
  A data frame of the class \code{causal_implications} with a row for each pair: \code{a}, \code{b}, and \code{given}, the set as
  text, whose elements are character vectors: \code{given[[1]]} is the first, and \code{as.list} and \code{lapply} see them. With
  data also \code{difference}, the nearest number of R, \code{exact}, the same as text, and \code{at}, the levels at which it is,
  likewise as text whose elements are lists. \code{as.data.frame} gives a plain data frame with text alone, and
  \code{\link{write.csv}} writes either. The attribute \code{dropped} is the number of records left out.
}
\seealso{\code{\link{separated}}, \code{\link{test_implications}}}
\examples{
fork <- causal_diagram("dag { A <- B -> C }")
implications(fork)
counts <- data.frame(expand.grid(C = 0:1, A = 0:1, B = 0:1), n = c(4, 2, 2, 1, 1, 3, 2, 1))
implications(fork, counts, count = "n")
}
