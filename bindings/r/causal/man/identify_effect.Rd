\name{identify_effect}
\alias{identify_effect}
\alias{is_identifiable}
\alias{identify.causal_diagram}
\alias{toLatex.causal_formula}
\alias{summary.causal_hedge}
\alias{print.summary.causal_hedge}
\title{Can an Effect Be Computed from Observations?}
\description{
  Gives a formula for the effect of \code{x} on \code{y}, with a certificate; or a hedge, with two models that agree on all
  that is observed and differ on the effect.
}
\usage{
identify_effect(diagram, x = NULL, y = NULL, given = NULL, short = FALSE)
is_identifiable(diagram, x, y)

\method{identify}{causal_diagram}(x, ...)
\method{toLatex}{causal_formula}(object, width = 55, ...)
\method{summary}{causal_hedge}(object, ...)
}
\arguments{
  \item{diagram}{a diagram, or what \code{\link{as_causal_diagram}} takes.}
  \item{x, y}{names of the exposures and of the outcomes; \code{NULL} for the vertices with these marks. Where there is
    no exposure that is refused: \code{character()} asks for the outcome where nothing is done. In the method
    \code{x} is a diagram.}
  \item{given}{names of variables with whose values the effect is asked for, \eqn{P(y | do(x), given)}; \code{NULL} for none.}
  \item{short}{\code{TRUE} for the shortest formula that is found.}
  \item{object}{an answer.}
  \item{width}{how many letters a line of the formula has at most, about.}
  \item{...}{for the method \code{identify} further arguments of \code{identify_effect}, not named; else not used.}
}
\details{
  Proved: a formula has no intervention in it and equals \eqn{P(y | do(x))} at every assignment, in every positive finite model
  that fits the diagram. The two printed models of a hedge fit the diagram, are positive, agree on all observations, and differ on
  the effect.

  In a formula \code{sum\{M\}} reaches as far right as it can, and \code{q0}, \code{q1} and so on are the definitions. A free
  variable, as the \code{Z} of the napkin, may be set to any value: the formula gives the same.

  \code{\link[graphics]{identify}} of the package \pkg{graphics} takes a diagram too: \code{identify(diagram)} or
  \code{identify(diagram, "X", "Y")}. Its first argument has the name \code{x}, so the exposures can't be named there.

  With \code{given} the formula is one for the conditional effect. Where there is none, the hedge is one of a joint effect, by
  which that can't be computed from observations; and no formula over observations equals the conditional effect in every model.
  Where the answer is \code{settled}, the two printed models differ on the conditional effect too; else two other models do, which aren't shown.

  \code{is_identifiable} gives \code{TRUE} or \code{FALSE} alone, and so is the fastest for many questions about one diagram.
  Proved: \code{TRUE} comes exactly where a formula equals the effect in every positive finite model of the observed graph, and
  \code{FALSE} exactly where two such models agree on all observations and differ on the effect. It asks for no memory.

  With \code{short} the formula is one that is proved to be no longer than the one without. It needn't be the shortest there is.
}
\value{
  For a formula a list of the class \code{causal_formula}: \code{identifiable} (\code{TRUE}), \code{target},
  \code{expression}, \code{definitions}, \code{free}, \code{latex} (lines of the environment \code{aligned} of amsmath; \code{toLatex}
  displays them), \code{printed_latex} (the lines of \code{causal identify --latex}), \code{certificate}
  and the printed \code{text}.

  For a hedge a list of the class \code{causal_hedge}: \code{identifiable} (\code{FALSE}), \code{target}, the sets \code{big},
  \code{small} and \code{roots}, the data frames \code{choice} and \code{links}, the hidden \code{causes} of both models, the
  bits of the \code{first} and the \code{second} model, each the sum of its terms modulo 2, the vertices of the \code{event}
  that the sum of their bits is even, its probabilities under the intervention, \code{in_first} and \code{in_second}, and
  their \code{difference}, the \code{certificate} and the printed \code{text}. Where \code{given} was asked about, \code{target} is
  the joint effect, \code{conditional} the one that was asked for, and \code{settled} whether it is proved that the very two models
  differ on that one too. \code{summary} leaves the models out.
}
\seealso{\code{\link{check_certificate}}, \code{\link{evaluate}}, \code{\link{surrogate}}}
\examples{
formula <- identify_effect("dag { X [exposure] Y [outcome] X -> M -> Y X <-> Y }")
formula
toLatex(formula)

identify_effect("dag { Z -> X Z -> Y X -> Y }", x = "X", y = "Y", given = "Z")
identify_effect("dag { W -> Z -> X -> Y W <-> X W <-> Y }", x = "X", y = "Y", short = TRUE)

hedge <- identify_effect("dag { X -> Y X <-> Y }", x = "X", y = "Y")
summary(hedge)
hedge$difference
}
