\name{surrogate}
\alias{surrogate}
\title{Can an Effect Be Computed from Experiments on Other Variables?}
\description{
  Gives a formula for the effect of \code{x} on \code{y} that may use experiments, or the part of the diagram for which none was
  found.
}
\usage{
surrogate(diagram, x = NULL, y = NULL, experiments, models = FALSE)
}
\arguments{
  \item{diagram}{a diagram, or what \code{\link{as_causal_diagram}} takes.}
  \item{x, y}{names of the exposures and of the outcomes; \code{NULL} for the vertices with these marks. Without an exposure it is refused.}
  \item{experiments}{a list of character vectors, from one to eight: each names the variables that were set in one experiment,
    under which all others were observed. A single experiment needn't be in a list.}
  \item{models}{whether a hedge is asked for that excludes every formula from these experiments, with its two models.}
}
\details{
  Proved: each term of the formula is observed or under one of the experiments, and the formula equals \eqn{P(y | do(x))} at every
  assignment, in every positive finite model that fits the diagram. Where none was found, a hedge stands against the named
  district, without an experiment and under each of those that are disjoint from it. It isn't said that no other way leads
  from the experiments to the effect. With \code{models} a hedge is given, where there is one, whose two models agree on all
  observations and under each experiment, and differ on the effect: then no formula from these experiments exists.
}
\value{
  For a formula a list of the class \code{causal_formula}, as \code{\link{identify_effect}} gives it. Its \code{certificate} is
  judged by \code{\link{check_certificate}} with the same \code{experiments}. Else a list of the class \code{causal_stopped}:
  \code{identifiable} (\code{FALSE}), \code{target}, the \code{district}, the sets \code{big}, \code{small} and \code{roots} of the hedge, and the printed \code{text}; or, with
  \code{models}, a list of the class \code{causal_hedge}, as \code{\link{identify_effect}} gives it, with the \code{district}.
}
\seealso{\code{\link{identify_effect}}, \code{\link{check_certificate}}}
\examples{
diagram <- causal_diagram("dag { X [exposure] Y [outcome] Z -> X -> Y Z <-> X Z <-> Y }")
identify_effect(diagram)$identifiable
surrogate(diagram, experiments = "Z")
surrogate("dag { X -> Y X <-> Y X -> Z }", "X", "Y", experiments = list("Z"))
surrogate("dag { Z -> X -> Y Z <-> X Z <-> Y X <-> Y }", "X", "Y",
          experiments = "Z", models = TRUE)$district
}
