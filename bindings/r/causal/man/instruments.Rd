\name{instruments}
\alias{instruments}
\alias{as.list.causal_instruments}
\alias{as.data.frame.causal_instruments}
\title{Which Vertices Are Instruments?}
\description{
  Lists the vertices that are instruments for the effect of \code{x} on \code{y}, each with the minimal sets of strata in which it is
  one.
}
\usage{
instruments(diagram, x = NULL, y = NULL, most = 100)
}
\arguments{
  \item{diagram}{a diagram, or what \code{\link{as_causal_diagram}} takes.}
  \item{x, y}{names of the exposures and of the outcomes; \code{NULL} for the vertices with these marks.}
  \item{most}{list at most so many sets of each vertex, from 1 to 10000.}
}
\details{
  Proved: each vertex outside \code{x} and \code{y} that isn't listed is an instrument in no strata, and the sets of each that is are
  minimal ones in which it is, each once, and all of them where there are no more than \code{most}. That an instrument goes with
  \code{x}, without which its bounds are no tighter, isn't asked.

  \code{\link{bounds_effect}} takes a vertex with one of its sets, as \code{instrument} and \code{strata}.
}
\value{
  A list of the class \code{causal_instruments}: \code{strata}, the lists of sets by the names of the vertices (\code{as.list} gives it
  too; \code{as.data.frame} a row for each \code{instrument} and set of \code{strata}), and \code{more}, the names of the vertices of
  which there are more sets than \code{most}. It has the printed \code{text}.
}
\seealso{\code{\link{bounds_effect}}, \code{\link{adjustment_sets}}}
\examples{
diagram <- causal_diagram("dag { X [exposure] Y [outcome]
  A -> Z A -> B -> Y Z -> X -> Y X <-> Y }")
instruments(diagram)
as.data.frame(instruments(diagram))
instruments(diagram, most = 1)$more
}
