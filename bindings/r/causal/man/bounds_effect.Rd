\name{bounds_effect}
\alias{bounds_effect}
\alias{print.causal_bounds}
\alias{as.data.frame.causal_bounds}
\alias{print.causal_no_model}
\title{What Is an Effect at Least and at Most?}
\description{
  Gives what the effects of \code{x} on \code{y} are at least and at most over data, whether or not there is a formula.
}
\usage{
bounds_effect(diagram, data, x = NULL, y = NULL, given = NULL,
              instrument = NULL, strata = NULL, count = NULL,
              exact = FALSE, missing = c("error", "drop", "level"),
              treated = NULL, control = NULL, outcome = NULL, set = NULL,
              resamples = 0, level = 0.95, seed = 0, progress = NULL)

\method{print}{causal_bounds}(x, ...)
\method{as.data.frame}{causal_bounds}(x, ...)
}
\arguments{
  \item{diagram}{a diagram, or what \code{\link{as_causal_diagram}} takes.}
  \item{data}{as in \code{\link{evaluate}}, with a column for each variable that is named.}
  \item{x, y}{names of the exposures and of the outcomes; \code{NULL} for the vertices with these marks. In the methods \code{x} is
    an answer.}
  \item{given}{names of variables with whose values the effect is asked for; \code{NULL} for none.}
  \item{instrument}{names of variables on which the exposures don't act, and that go with the outcomes through the exposures alone, as the
    arm that was assigned in a trial; \code{NULL} for the natural bounds.}
  \item{strata}{names of variables in whose strata the instrument is one; the bounds are summed over them.}
  \item{set}{names of a set to adjust for, which has to be admissible: a stratum that has records of an arm counts as the adjustment has
    it, and one that lacks some leaves open what would have been seen there (\code{\link{evaluate}} has no value then). It goes with no
    \code{given} and no \code{instrument}.}
  \item{count, exact, missing}{as in \code{\link{evaluate}}.}
  \item{treated, control, outcome}{as in \code{\link{contrast}}: with both arms the answer has a row for the risk in each and one for their
    difference, which is at least what the ends leave that are nearest, and at most those that are farthest apart.}
  \item{resamples}{how many resamples are drawn, for intervals; 0 for none.}
  \item{level, seed, progress}{as in \code{\link{contrast}}.}
  \item{...}{for \code{print} arguments of \code{print.data.frame}.}
}
\details{
  Proved: each effect is at least and at most what is printed in every model of the diagram, hidden variables included, whose observed
  probabilities are the shares of the records, positive or not. It isn't claimed that no better bounds can be had. How far the shares of a
  sample are from those of the population isn't in the bounds.

  Computed: with \code{resamples} as many tables of as many records are drawn with replacement, and the bounds of each are asked for. An
  interval goes from the lower percentile of what \code{at_least} is over these to the upper percentile of what \code{at_most} is; that of a
  difference is of the differences. So it is for the whole range: it covers that from the true lower to the true upper bound in about
  \code{level} of large samples. It does so far less often where an end is the tightest of several numbers that are nearly equal, as where an
  instrument hardly goes with \code{x}. A resample has the levels of \code{x}, of \code{y} and of \code{given} that the data have. One
  without bounds, since a condition has no record or since bounds cross, is left out of the intervals and counted; where these are many, the
  intervals are too narrow, and a share of 5\% or more is warned of.

  Without an instrument the bounds are the natural ones (Robins 1989; Manski 1990); with one they are the tightest over its levels
  (Pearl, Causality, chapter 8).
}
\value{
  A data frame of the class \code{causal_bounds}: the levels of \code{x}, of \code{given} and of \code{y}, and \code{at_least} and
  \code{at_most}; with \code{resamples} also \code{conf_low} and \code{conf_high}; with \code{exact} also \code{at_least_exact} and
  \code{at_most_exact}, fractions as text. Its attribute \code{dropped} counts the records that were left out; with \code{resamples} there are
  \code{level}, \code{interval}, \code{resamples}, \code{without_value} (how many resamples had no bounds) and \code{seed} too.

  Where the set is no instrument a list of the class \code{causal_no_instrument}: \code{holds} (\code{FALSE}), and \code{moved}, a variable on
  which the exposures act, or \code{path}, which is open. Where no model of the diagram has these counts a list of the class
  \code{causal_no_model}, with the bounds that cross in \code{crossed}. Both are proved; in a sample small strata can make bounds cross by
  chance alone.
}
\seealso{\code{\link{instruments}}, \code{\link{identify_effect}}, \code{\link{evaluate}}}
\examples{
trial <- data.frame(assigned = rep(c("no", "yes"), c(2, 4)),
                    taken = rep(c("no", "yes"), c(4, 2)),
                    improved = c("no", "yes"), n = c(158, 14, 52, 12, 23, 78))
diagram <- causal_diagram("dag { assigned -> taken -> improved taken <-> improved }")
bounds_effect(diagram, trial, "taken", "improved", instrument = "assigned",
              count = "n", exact = TRUE)
bounds_effect(diagram, trial, "taken", "improved", instrument = "assigned",
              count = "n", treated = "yes", control = "no", outcome = "yes")
bounds_effect(diagram, trial, "taken", "improved", count = "n",
              treated = "yes", control = "no", outcome = "yes",
              resamples = 200)
}
