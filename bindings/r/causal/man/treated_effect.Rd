\name{treated_effect}
\alias{treated_effect}
\title{Can an Effect Among the Treated Be Computed?}
\description{
  Gives a formula for the effect of \code{x} on \code{y} among those for whom other values of \code{x} were observed, as the treated.
}
\usage{
treated_effect(diagram, x = NULL, y = NULL, given = NULL, certificate = FALSE)
}
\arguments{
  \item{diagram}{a diagram, or what \code{\link{as_causal_diagram}} takes.}
  \item{x, y}{names of the exposures and of the outcomes; \code{NULL} for the vertices with these marks.}
  \item{given}{names of variables with whose observed values the effect is asked for, on which \code{x} doesn't act; \code{NULL} for none.}
  \item{certificate}{whether a formula comes with its \code{certificate}, for \code{\link{check_certificate}}: a formula with its derivation for each district.}
}
\details{
  In the formula a name of \code{x} stands for the value that is done, and the same name with a prime, as \verb{X'}, for the value that was
  observed.

  Proved: a formula equals the effect in every positive finite model that fits the diagram's observed graph, at every assignment. Where a
  treatment is joined by bidirected edges to a child of its own there is none, which two models show. Where the joint effect has a formula
  even so, it gives the effect among the treated of a treatment with two values; over data \code{\link{evaluate}} and
  \code{\link{contrast}} have it then.
}
\value{
  For a formula a list of the class \code{causal_formula}, as \code{\link{identify_effect}} gives it. Else a list of the class
  \code{causal_confounded}: \code{identifiable} (\code{FALSE}), \code{target}, \code{treatment}, its \code{child}, the \code{path} that leads back,
  the effect \code{joint}, and its \code{hedge} where it has one; else \code{two_values}, which says how \code{joint} is made up for a treatment
  of two values.
}
\seealso{\code{\link{identify_effect}}}
\examples{
treated_effect("dag { S -> T -> R <- S }", x = "T", y = "R")
treated_effect("dag { X -> Y X <-> Y }", x = "X", y = "Y")$path
}
