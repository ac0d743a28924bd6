\name{direct_effect}
\alias{direct_effect}
\title{The Controlled Direct Effect}
\description{The effect of one vertex on another where all other observed parents of the latter are set too.}
\usage{direct_effect(diagram, x = NULL, y = NULL, short = FALSE)}
\arguments{
  \item{diagram}{a diagram, or what \code{\link{as_causal_diagram}} takes.}
  \item{x, y}{one vertex each; the exposure and the outcome by default.}
  \item{short}{as in \code{\link{identify_effect}}.}
}
\value{What \code{\link{identify_effect}} answers for \code{x} with the other parents: a formula or a hedge.}
\examples{
direct_effect("dag { X [exposure] Y [outcome] X -> M -> Y X -> Y C -> M C -> Y }")
}
