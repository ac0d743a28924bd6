\name{equivalent}
\alias{equivalent}
\title{Do Two Diagrams Imply the Same?}
\description{Compares two diagrams without bidirected edges by the separations that they imply.}
\usage{equivalent(diagram, other, x = NULL, y = NULL, given = NULL)}
\arguments{
  \item{diagram, other}{diagrams with the same names, or what \code{\link{as_causal_diagram}} takes.}
  \item{x, y, given}{names of the first diagram: sets of which equivalent diagrams say whether \code{given} separates \code{x}
    from \code{y}. \code{x} and \code{y} are both given or neither is; without \code{given} nothing is.}
}
\details{
  Proved: a yes means that both have the same skeleton and the same unshielded colliders, and that any sets are separated in the
  one exactly where they are in the other; a no comes with the first difference and a separation that holds in one of the two
  alone.
}
\value{
  A list of the class \code{causal_equivalence}: \code{holds}; where it is \code{FALSE}, \code{difference} (\code{"edge"} or
  \code{"collider"}), its \code{vertices}, \code{difference_in} (\code{"first"} or \code{"second"}), and the separation of
  \code{x} from \code{y} by \code{given} that holds in \code{separated_in} alone; and the printed \code{text}. Where
  \code{holds} is \code{TRUE} and sets were asked about, \code{separated}, and either the sets \code{x}, \code{y} and
  \code{given} or \code{paths}, an open path of each diagram, both with the same ends.
}
\examples{
equivalent("dag { A -> B -> C }", "dag { A <- B -> C }")
equivalent("dag { A -> B -> C }", "dag { A -> B <- C }")
equivalent("dag { A -> B -> C }", "dag { A <- B -> C }", x = "A", y = "C")
}
