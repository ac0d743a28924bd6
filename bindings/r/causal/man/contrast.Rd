\name{contrast}
\alias{contrast}
\alias{print.causal_contrast}
\alias{plot.causal_contrast}
\title{Compare Two Arms, with Intervals}
\description{
  Gives the difference, the ratio and the odds ratio of the probabilities of each outcome under two interventions, with intervals
  by the bootstrap.
}
\usage{
contrast(diagram, data, x = NULL, y = NULL, treated = NULL, control = NULL,
         count = NULL, level = 0.95, resamples = 1000, seed = 0,
         missing = c("error", "drop", "level"), at = NULL,
         interval = c("percentile", "bca"), set = NULL,
         given = NULL, progress = NULL, back_door = FALSE, zero = TRUE,
         short = is.null(set), outcome = NULL, weights = NULL,
         clusters = NULL, strata = NULL, observed = NULL)
\method{print}{causal_contrast}(x, digits = 4, ...)
\method{plot}{causal_contrast}(x, measure = "difference", ...)
}
\arguments{
  \item{diagram, data, x, y, count, missing, at, set, given, back_door, zero, short, weights}{as in \code{\link{evaluate}}; in the method
    \code{x} is an answer.}
  \item{treated, control}{the levels of \code{x} in both arms: a value, or for several exposures a vector or list named by them; without
    names the levels stand in the order of \code{x} as it is written here, and are refused where \code{x} isn't.
    Where there is one exposure with two levels the second is \code{treated} and the first \code{control} by default.}
  \item{level}{the level of the intervals.}
  \item{resamples}{how many resamples are drawn; 0 for none.}
  \item{interval}{\code{"percentile"} for percentiles of the resamples, or \code{"bca"} for percentiles that are corrected for bias
    and accelerated, which evaluates the effect once more for each row of the table of counts.}
  \item{progress}{a function that is called after each block of tables of counts, with how many were evaluated and of how many, as
    \code{function(done, of) cat("\\r", done, "of", of)}; \code{NULL} shows it to a person from a second on, \code{FALSE} never.}
  \item{outcome}{the level of the outcome, where one is wanted; for several outcomes a list named by them.}
  \item{clusters, strata}{names of columns of the design of a survey: resamples draw clusters within strata, one fewer than there are, and
    raise their weights by as much. They go with \code{"percentile"} alone.}
  \item{observed}{the level of \code{x} that was observed, given as an arm is: then both risks are those among the ones for whom it was,
    by the formula of \code{\link{treated_effect}}, or where it has none by two levels of \code{x}, as \code{\link{evaluate}} has it. With \code{observed} the level of \code{treated} the difference is the effect of
    treatment on the treated.}
  \item{digits}{how many digits are shown.}
  \item{measure}{which measure the forest plot is of.}
  \item{...}{passed on to \code{\link{print.data.frame}}, or to \code{\link[graphics]{title}}.}
  \item{seed}{a seed for this computation alone; \code{NULL} draws one, which the answer tells.}
}
\details{
  A resample draws as many records as the data have from the table of counts, with replacement, and the formula is evaluated
  over it. The exposures, the outcomes, what is given and the pinned variables keep their levels and their pinned level; of the
  other variables a resample has the levels that it drew. A resample in which some cell has no support has no value; it is left out
  of the intervals, and the number of these is said. Where it is not small, the intervals are too narrow, and the data are too
  thin for the formula; with \code{zero} or \code{short} it may be smaller. With \code{observed} and two levels a resample that no model of
  the diagram has is such a one too. A resample in which the control's probability is 0 has no ratio; where one of both is 1, no odds ratio.

  With rare outcomes neither interval reaches its level, and \code{"bca"} isn't the better one. Lost resamples, fewer than five records
  with the outcome in an arm, and intervals of width 0 are told in the column \code{note}; a share of lost resamples from 5\% on is warned
  of too.

  \strong{What is proved} is each effect over the data, as \code{\link{evaluate}} says. \strong{What is only computed}, with R's
  numbers: the effects over the resamples, by the tree of the same formula, which has to give over the data what the library gives (else
  the library is asked for each one); the differences, both ratios, and the intervals, which cover the truth with
  about their level where the sample is large. The bounds' middles stand for the effects; they are right to some 15 digits.
}
\value{
  A data frame of the class \code{causal_contrast} with a row for each level of \code{y}, and of what is given, and each measure: their
  columns; the arms \code{treated} and \code{control}, as text; \code{measure}: \code{"risk_treated"}, \code{"risk_control"},
  \code{"difference"}, \code{"ratio"} or \code{"odds_ratio"}; \code{estimate}, \code{conf_low}, \code{conf_high} and \code{note}. It is
  printed with a column for each measure. Rows of several answers may be bound together by \code{rbind}. Attributes: \code{level},
  \code{interval}, \code{resamples}, \code{without_value} (how many resamples had no value), \code{without_ratio}, \code{outcomes},
  \code{exposures}, \code{seed}, \code{treated}, \code{control}, \code{pinned} and \code{dropped}. The columns of before, as
  \code{difference} and \code{difference_lower}, can still be read by \code{$}, with a warning.
}
\seealso{\code{\link{effect_means}}, \code{\link{as.data.frame.causal_effects}}}
\examples{
diagram <- causal_diagram("dag { T [exposure] R [outcome] S -> T S -> R T -> R }")
contrast(diagram, kidney_stones, treated = "A", control = "B",
         count = "count", resamples = 200, seed = 1)
contrast(diagram, kidney_stones, treated = "A", control = "B",
         observed = "A", count = "count", resamples = 200, seed = 1)
}
