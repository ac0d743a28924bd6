\name{compare}
\alias{compare}
\alias{print.causal_comparison}
\alias{plot.causal_comparison}
\alias{as.data.frame.causal_comparison}
\title{Do the Ways to an Effect Agree?}
\description{
  The crude risk difference beside that by the formula and by each minimal set to adjust for, with E-values, and what the difference is at
  least and at most.
}
\usage{
compare(diagram, data, x = NULL, y = NULL, treated = NULL, control = NULL,
        outcome = NULL, most = 10, resamples = 1000, model = "logistic",
        bounds = TRUE, ...)
\method{plot}{causal_comparison}(x, ...)
}
\arguments{
  \item{diagram, data, x, y, treated, control, outcome, resamples}{as in \code{\link{contrast}}; in the method \code{x} is an answer.}
  \item{most}{how many sets are taken at most.}
  \item{model}{as in \code{\link{estimate}}, where the counts have no value.}
  \item{bounds}{whether the bounds of \code{\link{bounds_effect}} stand beside it.}
  \item{...}{other arguments of \code{\link{contrast}}, as \code{count}; of the drawing, those of \code{\link[graphics]{title}}.}
}
\details{
  Where the diagram is right all rows but the crude one estimate one number. Where two of them have intervals without a common value it is
  told: then the diagram, or the data, may be wrong. A row is by \code{"counts"} where these have a value; else it is by \code{"models"}, and
  computed. The bounds take nothing but the diagram and the counts, and are proved of these.
}
\value{
  A data frame of the class \code{causal_comparison} with a row for each way (\code{set}: \code{"crude"}, \code{"formula"}, each set)
  and level of the outcome: \code{by}, \code{estimate}, \code{conf_low}, \code{conf_high}, the \code{e_value} of the risk
  ratio, and \code{note}. The attribute \code{bounds} has \code{at_least} and \code{at_most}, which are no interval of a sample.
  \code{plot} draws it.
}
\examples{
diagram <- causal_diagram("dag { T [exposure] R [outcome] S -> T S -> R T -> R }")
compare(diagram, kidney_stones, treated = "A", control = "B", count = "count",
        outcome = "success", resamples = 50)
}
