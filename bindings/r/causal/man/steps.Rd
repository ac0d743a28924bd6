\name{steps}
\alias{steps}
\title{What Stands There After Each Step?}
\description{Tells the derivation of a certificate step by step, whoever wrote it.}
\usage{steps(diagram, certificate, experiments = NULL)}
\arguments{
  \item{diagram}{a diagram, or what \code{\link{as_causal_diagram}} takes.}
  \item{certificate}{the text of a certificate, or an answer of \code{\link{identify_effect}} or \code{\link{surrogate}}.}
  \item{experiments}{the experiments that there are, as in \code{\link{surrogate}}; \code{NULL} for none.}
}
\details{
  The steps of each lemma come in turn, and last the main ones, which lead from the effect to the formula. They are told of a
  certificate of a formula that \code{\link{check_certificate}} accepts. Proved: each expression is what its move makes of the one
  before, and each rule holds.
}
\value{
  A list of the class \code{causal_steps}: \code{accepted} (and \code{holds}, the same: \code{TRUE}), the \code{formula}, as
  \code{\link{check_certificate}} has it, the data frame \code{steps} (also by \code{as.data.frame}) with a row for each expression,
  the number of its \code{lemma} (\code{NA} for the main steps) and the \code{move} that makes it (empty where a part starts); and
  \code{rules}, a list with an element for each row: the rule for which its move asks, or \code{NULL}. A rule is a list of its number
  \code{rule}, its sets \code{y}, \code{z}, \code{do} and \code{given}, and the \code{edges} of the graph in which y and z have to be
  separated by both others together.

  Of a certificate of a hedge, or one that is refused, the answer is that of \code{\link{check_certificate}}.
}
\examples{
diagram <- causal_diagram("dag { X -> M -> Y X <-> Y }")
told <- steps(diagram, identify_effect(diagram, "X", "M"))
told
told$rules[[2]]$edges
}
