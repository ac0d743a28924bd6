\name{plot.causal_diagram}
\alias{plot.causal_diagram}
\alias{plot.causal_separation}
\alias{plot.causal_rule}
\alias{plot.causal_adjustment}
\alias{plot.causal_sets}
\alias{plot.causal_formula}
\alias{plot.causal_hedge}
\alias{plot.causal_stopped}
\title{Draw a Diagram}
\description{
  Draws a diagram with base graphics: roles by colour, bidirected edges dashed. An open path, or a hedge, is drawn out in red.
}
\usage{
\method{plot}{causal_diagram}(x, path = NULL, hedge = NULL, layout = NULL, legend = TRUE,
     set = NULL, ...)
\method{plot}{causal_separation}(x, ...)
\method{plot}{causal_rule}(x, ...)
\method{plot}{causal_adjustment}(x, ...)
\method{plot}{causal_sets}(x, which = 1, ...)
\method{plot}{causal_formula}(x, ...)
\method{plot}{causal_hedge}(x, ...)
\method{plot}{causal_stopped}(x, ...)
}
\arguments{
  \item{x}{a diagram; or an answer, which is drawn in the diagram that was asked about, without its hidden vertices.}
  \item{path}{an open path, as an answer has it in \code{path}.}
  \item{hedge}{a hedge, as \code{\link{identify_effect}} answers it.}
  \item{layout}{a matrix with two columns, the places of the vertices, and their names as row names; \code{"layers"} for places that
    are computed; by default those of the attribute \code{pos}, as DAGitty writes it, where each vertex has one, and else layers.}
  \item{set}{names of vertices that are coloured as adjusted.}
  \item{which}{which of the sets of \code{\link{adjustment_sets}} is coloured.}
  \item{legend}{whether the colours are explained.}
  \item{...}{passed on to \code{\link[graphics]{title}}; from the methods for answers, to the one for diagrams.}
}
\value{The places of the vertices as a matrix, invisibly; it can be changed and given as \code{layout}.}
\examples{
front_door <- causal_diagram("dag { X [exposure] Y [outcome] X -> M -> Y X <-> Y }")
plot(front_door, main = "front door")
plot(separated(front_door, "X", "Y"))
plot(identify_effect("dag { X [exposure] Y [outcome] X -> Y X <-> Y }"))
}
