\name{adjustment_sets}
\alias{adjustment_sets}
\alias{adjusts}
\alias{is_admissible}
\alias{as.list.causal_sets}
\alias{as.data.frame.causal_sets}
\title{What May Be Adjusted For?}
\description{
  Lists the minimal sets that may be adjusted for, or tells whether one set may be, with the vertex or the path that speaks
  against it.
}
\usage{
adjustment_sets(diagram, x = NULL, y = NULL, most = 100)
adjusts(diagram, set, x = NULL, y = NULL, back_door = FALSE)
is_admissible(diagram, set, x, y)
}
\arguments{
  \item{diagram}{a diagram, or what \code{\link{as_causal_diagram}} takes.}
  \item{x, y}{names of the exposures and of the outcomes; \code{NULL} for the vertices with these marks.}
  \item{most}{list at most so many sets, from 1 to 10000.}
  \item{set}{names of the vertices to adjust for; \code{character()} for none.}
  \item{back_door}{whether the back-door criterion of one exposure is asked for, in place of the adjustment criterion.}
}
\details{
  Proved: the listed sets are minimal sets that meet the adjustment criterion, each once, and all of them where there are no
  more than \code{most}. A yes means that the set meets the criterion, and that the formula equals the effect in every positive
  finite model that fits the diagram; a no comes with the vertex, or the open path, that breaks the criterion.

  \code{is_admissible} gives \code{TRUE} or \code{FALSE} alone, and so is the fastest for many questions about one diagram.
  Proved: \code{TRUE} comes exactly where the set meets the adjustment criterion, and \code{FALSE} exactly where its formula isn't
  the effect in some positive finite model of the observed graph. It asks for no memory.
}
\value{
  From \code{adjustment_sets} a list of the class \code{causal_sets}: \code{sets}, a list of character vectors (\code{as.list}
  gives it too; \code{as.data.frame} a row for each \code{set} and \code{name}), and \code{more}, whether there are more than
  \code{most}. From \code{adjusts} a list of the class \code{causal_adjustment}: \code{holds}, \code{set}, and the formula
  (\code{target}, \code{expression}, \code{latex}) or one of \code{forbidden} and \code{path}. Both have the printed
  \code{text}.
}
\examples{
diagram <- causal_diagram("dag { A B D [outcome] E [exposure] Z
  A -> E A -> Z B -> D B -> Z E -> D Z -> D Z -> E }")
adjustment_sets(diagram)
adjusts(diagram, "Z")
adjusts(diagram, c("A", "Z"))
}
