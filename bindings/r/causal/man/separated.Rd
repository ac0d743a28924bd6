\name{separated}
\alias{separated}
\alias{is_separated}
\alias{print.causal_answer}
\alias{format.causal_answer}
\alias{as.character.causal_answer}
\alias{as.logical.causal_answer}
\alias{summary.causal_answer}
\alias{print.causal_path}
\alias{as.character.causal_path}
\title{Are Two Sets Separated?}
\description{Tells whether two sets of vertices are separated given a third; where they aren't, by which open path.}
\usage{
separated(diagram, x = NULL, y = NULL, given = NULL)
is_separated(diagram, x, y, given = character())

\method{print}{causal_answer}(x, ...)
\method{as.logical}{causal_answer}(x, ...)
}
\arguments{
  \item{diagram}{a diagram, or what \code{\link{as_causal_diagram}} takes.}
  \item{x, y, given}{character vectors of names; \code{NULL} for the vertices marked \code{exposure}, \code{outcome} and
    \code{adjusted}. In the methods \code{x} is an answer.}
  \item{...}{not used.}
}
\details{
  Proved: a yes means that no walk from \code{x} to \code{y} is open given \code{given}, and that \code{x} and \code{y} are
  independent given it in every finite model that fits the diagram; a no comes with a path that is open.

  \code{is_separated} gives \code{TRUE} or \code{FALSE} alone, and so is the fastest for many questions about one diagram.
}
\value{
  A list of the class \code{causal_separation}: \code{holds}; the sets \code{x}, \code{y} and \code{given}; \code{path} with
  \code{vertices} and \code{marks} where \code{holds} is \code{FALSE}; and the printed \code{text}. All answers about a
  diagram are lists of the class \code{causal_answer} with \code{text} and \code{diagram}; the library is asked for the text where
  it is looked at, and \code{print} shows it. \code{as.logical} gives \code{holds}, for a formula \code{TRUE}, and \code{FALSE}
  for what stands in its place.
}
\examples{
collider <- causal_diagram("dag { talent -> fame <- looks }")
separated(collider, "talent", "looks")
answer <- separated(collider, "talent", "looks", given = "fame")
answer
answer$holds
answer$path$vertices
is_separated(collider, "talent", "looks")
}
