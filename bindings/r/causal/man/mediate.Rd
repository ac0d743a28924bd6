\name{mediate}
\alias{mediate}
\alias{natural_effect}
\alias{print.causal_mediation}
\alias{as.data.frame.causal_mediation}
\title{How Much of an Effect Goes through Mediators}
\description{
  \code{natural_effect} gives a formula for the effect of \code{x} on \code{y} were the mediators as they would be under other values of
  \code{x}, or why none was found. \code{mediate} computes from data how much of an effect goes through mediators, and how much past them.
}
\usage{
natural_effect(diagram, x = NULL, y = NULL, through, given = NULL,
               certificate = FALSE)

mediate(diagram, data, x = NULL, y = NULL, through, treated = NULL,
        control = NULL, outcome = NULL, count = NULL, level = 0.95,
        resamples = NULL, seed = 0,
        missing = c("error", "drop", "level"), progress = NULL,
        model = NULL, smoothing = 1, factors = character(),
        interval = NULL, draws = 1000, exact = FALSE)

\method{print}{causal_mediation}(x, digits = 4, ...)
\method{as.data.frame}{causal_mediation}(x, ...)
}
\arguments{
  \item{diagram}{a diagram, or what \code{\link{as_causal_diagram}} takes.}
  \item{data, count, missing}{as in \code{\link{evaluate}}, with a column for each variable that the formula reads.}
  \item{x, y}{names of the exposures and of the outcome; \code{NULL} for the vertices with these marks. In the methods \code{x} is an
    answer.}
  \item{through}{names of the mediators.}
  \item{given}{names of variables before \code{x} with whose values the effect is asked for; \code{NULL} for none.}
  \item{certificate}{whether a formula comes with its \code{certificate}, as that of \code{\link{treated_effect}}.}
  \item{treated, control, level, resamples, seed, progress}{as in \code{\link{contrast}}; without \code{resamples} 1000 are drawn of counts,
    and 200 where models have no influence functions.}
  \item{outcome}{the level of the outcome whose chance is compared; without it the second of two, or the mean of one with more numbers.}
  \item{model, smoothing, factors, interval, draws}{as in \code{\link{estimate}}: the terms of the formula by models. \code{NULL}
    is for none: the values over the counts.}
  \item{exact}{whether the attribute \code{values} has exact fractions, and no bounds; by counts alone.}
  \item{digits, ...}{passed on to \code{\link{print.data.frame}}.}
}
\details{
  \verb{P(Y[X,M[X']])} is the probability of \code{Y} had \code{X} been done, and \code{M} been what it would have been under \verb{X'}.
  The natural direct effect is that, with \code{X} treated and \verb{X'} control, less the probability under control; the natural indirect
  effect is the probability under treated less that. They add up to the total effect.

  \strong{Proved} is that a formula equals this at any two values of \code{x} in every positive finite model of the diagram's observed
  graph, and else that two models exclude one; and that the values over the counts in the three worlds, which the attribute \code{values}
  has, are the formula's. \strong{Computed} are the differences, the proportion, and the intervals, percentiles of resamples; and where a
  product with a factor 0 hides a condition that no record has, the values too: there is no attribute then. With a \code{model} values are computed by models of the formula's terms, where tables are thin,
  or where mediators or what lies before them are numbers; intervals are by influence functions where these are known. In a formula of
  \code{model} an exposure has its own name, also where the printed term has its second one.

  The proportion mediated means little where the direct and the indirect effect have opposite signs, or where the total may be near 0: its
  \code{note} says so. A natural effect speaks of two values of \code{X} in one person, which no experiment shows; the effect of \code{X} and
  \code{M} together, by \code{\link{contrast}} with both as \code{x}, asks for less.
}
\value{
  From \code{natural_effect} a list of the class \code{causal_natural}: \code{identifiable} (\code{TRUE}), \code{effect},
  \code{expression}, \code{summed}, the \code{factors}, each with its \code{district}, \code{reads}, \code{expression} and
  \code{definitions}, the \code{sets}, and the printed \code{text}; or of the class \code{causal_no_natural}: \code{joint} with its
  \code{hedge}, or the \code{witness} or the \code{district} that reads both values of the \code{treatment}.

  From \code{mediate} a data frame of the class \code{causal_mediation} with a row for each measure: \code{"treated"}, \code{"control"},
  \code{"between"} (as treated, the mediators as under control), \code{"total"}, \code{"direct"}, \code{"indirect"} and
  \code{"proportion"}; with the attributes \code{pinned} (levels of what the formula reads beside its sets), \code{models} (how each fits) and
  \code{values} (a row for each of the three worlds and each level of the outcome, with \code{estimate} and its bounds or \code{fraction}),
  and the columns \code{treated}, \code{control}, \code{estimate}, \code{conf_low}, \code{conf_high} and \code{note}. Where there
  is no formula an error of the class \code{causal_not_identifiable} has the \code{answer}.
}
\seealso{\code{\link{contrast}}, \code{\link{treated_effect}}}
\examples{
diagram <- causal_diagram("dag { C -> X C -> M C -> Y X -> M -> Y X -> Y }")
natural_effect(diagram, "X", "Y", through = "M")

data <- expand.grid(C = 0:1, X = 0:1, M = 0:1, Y = 0:1)
data$n <- c(30, 12, 9, 14, 8, 9, 12, 21, 10, 9, 6, 12, 8, 11, 14, 40)
mediate(diagram, data, "X", "Y", through = "M", count = "n",
        resamples = 200, seed = 1)
mediate(diagram, data, "X", "Y", through = "M", count = "n",
        model = "logistic")
}
