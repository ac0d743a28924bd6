\name{simulate.causal_diagram}
\alias{simulate.causal_diagram}
\title{Records of a Model on a Diagram}
\description{Draws a model on the diagram by chance, and records of it: to try an analysis before there are data.}
\usage{
\method{simulate}{causal_diagram}(object, nsim = 100, seed = NULL, levels = 2,
         strength = 2, ...)
}
\arguments{
  \item{object}{a diagram.}
  \item{nsim}{the number of records.}
  \item{seed}{a seed for this computation alone; \code{NULL} draws one.}
  \item{levels}{how many levels each vertex has, from 2 to 20.}
  \item{strength}{how far a parent moves its child at most, on the scale of the logistic distribution.}
  \item{...}{not used.}
}
\value{A data frame with a column for each observed vertex, of whole numbers from 0.}
\examples{
diagram <- causal_diagram("dag { X -> M -> Y X <-> Y }")
head(simulate(diagram, 100, seed = 1))
}
