\name{paths}
\alias{paths}
\alias{print.causal_paths}
\alias{plot.causal_paths}
\alias{as.data.frame.causal_paths}
\title{The Paths between Two Vertices}
\description{Lists the paths of the observed graph between two vertices, the shortest first, and which of them are open.}
\usage{
paths(diagram, from = NULL, to = NULL, given = character(), most = 100)
\method{plot}{causal_paths}(x, which = 1, ...)
}
\arguments{
  \item{diagram}{a diagram, or what \code{\link{as_causal_diagram}} takes.}
  \item{from, to}{one observed vertex each; the exposure and the outcome by default.}
  \item{given}{observed vertices that are given.}
  \item{most}{how many paths are listed at most.}
  \item{x}{an answer.}
  \item{which}{the number of the path that is marked in the drawing.}
  \item{...}{passed on to \code{\link{plot.causal_diagram}}.}
}
\details{
  Hidden common causes are bidirected edges here (\code{\link{project}}). Which paths are open is computed in R, by the definition; that
  two sets are separated is proved by \code{\link{separated}} alone.
}
\value{A data frame of the class \code{causal_paths}: \code{path}, \code{open}, \code{directed} and \code{vertices}.}
\examples{
diagram <- causal_diagram("dag { X [exposure] Y [outcome] C -> X C -> Y X -> M -> Y }")
paths(diagram)
paths(diagram, given = "C")
plot(paths(diagram), which = 2)
}
