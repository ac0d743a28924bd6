\name{project}
\alias{project}
\title{Project Hidden Vertices Away}
\description{Gives the diagram of the observed vertices: a hidden common cause becomes a bidirected edge.}
\usage{project(diagram)}
\arguments{
  \item{diagram}{a diagram, or what \code{\link{as_causal_diagram}} takes.}
}
\details{
  \code{a -> b} is an edge of the answer where a directed path from \code{a} to \code{b} has only hidden vertices inside, and
  \code{a <-> b} where a path without a collider and with arrowheads at both ends has only hidden vertices inside. Proved: the
  answer is this latent projection.
}
\value{A \code{\link{causal_diagram}}.}
\examples{
project("dag { gene [latent] gene -> smoking gene -> cancer smoking -> tar -> cancer }")
}
