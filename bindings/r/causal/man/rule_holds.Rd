\name{rule_holds}
\alias{rule_holds}
\title{Does a Rule of Do-Calculus Apply?}
\description{
  Tells whether a rule applies. Rule 1 leaves \code{z} out of what is observed, rule 2 observes \code{z} in place of doing it,
  rule 3 leaves \code{z} out of what is done.
}
\usage{rule_holds(diagram, rule, y, z, do = NULL, given = NULL)}
\arguments{
  \item{diagram}{a diagram, or what \code{\link{as_causal_diagram}} takes.}
  \item{rule}{1, 2 or 3.}
  \item{y}{names of the outcomes.}
  \item{z}{names of the vertices that the rule is about.}
  \item{do, given}{names of what is done, and of what else is observed; \code{NULL} for none.}
}
\details{
  Proved: a yes means that the rule's separation holds in its cut graph, and that the printed equation holds in every positive
  finite model that fits the diagram, at every assignment; a no comes with a path that is open there.
}
\value{
  A list of the class \code{causal_rule}: \code{holds}, \code{rule}, the \code{equation} of the rule as text, \code{path} where
  \code{holds} is \code{FALSE}, and the printed \code{text}.
}
\examples{
front_door <- causal_diagram("dag { X -> M -> Y X <-> Y }")
rule_holds(front_door, 2, y = "M", z = "X")
rule_holds(front_door, 2, y = "Y", z = "X")
}
