\name{parents}
\alias{parents}
\alias{children}
\alias{ancestors}
\alias{descendants}
\title{Relatives of a Vertex}
\description{The vertices that directed edges join to others, as they stand in the drawing, latent ones too.}
\usage{
parents(diagram, of)
children(diagram, of)
ancestors(diagram, of)
descendants(diagram, of)
}
\arguments{
  \item{diagram}{a diagram, or what \code{\link{as_causal_diagram}} takes.}
  \item{of}{names of vertices.}
}
\value{Names in the order of the diagram. A vertex is among its ancestors and descendants, and not among its parents and children.}
\seealso{\code{\link{paths}}}
\examples{
diagram <- causal_diagram("dag { A -> B -> C D -> C }")
parents(diagram, "C")
ancestors(diagram, "C")
descendants(diagram, "A")
}
