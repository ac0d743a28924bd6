\name{effect_means}
\alias{effect_means}
\alias{print.causal_means}
\title{The Mean of an Outcome under Interventions, with Intervals}
\description{
  Gives the mean of a numeric outcome under each level of the exposures, and how far each is from that under one of them, with
  intervals by the bootstrap.
}
\usage{
effect_means(diagram, data, x = NULL, y = NULL, control = NULL,
             count = NULL, level = 0.95, resamples = 1000, seed = 0,
             missing = c("error", "drop", "level"), at = NULL,
             interval = c("percentile", "bca"), set = NULL,
             given = NULL, progress = NULL, back_door = FALSE,
             zero = TRUE, short = is.null(set), weights = NULL,
             clusters = NULL, strata = NULL)
\method{print}{causal_means}(x, digits = 4, ...)
}
\arguments{
  \item{diagram, data, x, y, count, missing, at, set, given, back_door, zero, short}{as in \code{\link{evaluate}}, with one outcome whose
    levels are numbers, or are written as such; in the method \code{x} is an answer.}
  \item{control}{the levels of \code{x} with which the others are compared, as in \code{\link{contrast}}; the first by default.}
  \item{level, resamples, seed, interval, progress, digits, weights, clusters, strata}{as in \code{\link{contrast}}.}
  \item{...}{passed on to \code{\link{print.data.frame}}.}
}
\details{
  A mean is the sum of the outcome's levels, each times the probability of it under the intervention. \strong{What is proved} is
  each of these probabilities over the data, as \code{\link{evaluate}} says. Those over resamples, the means, their differences
  and the intervals are \strong{only computed}, with R's numbers.
}
\value{
  A data frame of the class \code{causal_means} with a row for each level of the exposures, and of what is given, and each measure: their
  columns, \code{control}, \code{measure} (\code{"mean"} or \code{"difference"}), \code{estimate}, \code{conf_low}, \code{conf_high} and
  \code{note}. Attributes: \code{outcome}, \code{control}, \code{level}, \code{interval}, \code{resamples}, \code{without_value},
  \code{seed}, \code{pinned} and \code{dropped}.
}
\examples{
diagram <- causal_diagram("dag { A -> X A -> days X -> days }")
data <- expand.grid(A = 0:1, X = c("new", "old"), days = c(3, 7, 14))
data$n <- c(20, 8, 12, 15, 9, 11, 14, 10, 4, 9, 6, 13)
effect_means(diagram, data, "X", "days", count = "n",
             control = "old", resamples = 200, seed = 1)
}
