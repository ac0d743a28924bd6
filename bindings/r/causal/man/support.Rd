\name{support}
\alias{support}
\alias{print.causal_support}
\alias{as.data.frame.causal_support}
\title{Where Do Records Lack?}
\description{Counts the records of each arm in each stratum of a set to adjust for.}
\usage{
support(diagram, data, x = NULL, y = NULL, set = NULL, count = NULL,
        missing = c("error", "drop", "level"))
}
\arguments{
  \item{diagram, data, x, y, count, missing}{as in \code{\link{evaluate}}.}
  \item{set}{names of vertices; the first of \code{\link{adjustment_sets}} by default. One that isn't admissible is warned of.}
}
\value{
  A data frame of the class \code{causal_support} with a row for each stratum that has a record and each arm: the columns of the set and
  of the exposures, and \code{records}. Where it is printed the strata that lack an arm are told, with the number of their records: over
  these an effect has no value without a model.
}
\seealso{\code{\link{evaluate}}, \code{\link{estimate}}}
\examples{
diagram <- causal_diagram("dag { T [exposure] R [outcome] S -> T S -> R T -> R }")
support(diagram, kidney_stones, count = "count")
}
