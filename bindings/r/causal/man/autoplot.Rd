\name{autoplot}
\alias{autoplot.causal_diagram}
\alias{autoplot.causal_contrast}
\alias{autoplot.causal_estimate}
\title{Draw with ggplot2}
\description{
  Methods for \code{autoplot} of the package \pkg{ggplot2}: a diagram with its open path or hedge, or the intervals of a contrast, of
  means or of tests, as an object to which layers and themes can be added.
}
\details{
  The package \pkg{ggplot2} isn't needed; where it is loaded, its generic takes diagrams, the answers that
  \code{\link{plot.causal_diagram}} draws, and those of \code{\link{contrast}}, \code{\link{effect_means}},
  \code{\link{compare}} and \code{\link{test_implications}}.

  \code{autoplot(diagram, path, hedge, layout)} has the arguments of \code{\link{plot.causal_diagram}}, and its colours. The methods
  for answers take \code{layout} alone. \code{autoplot(answer, measure)} of a contrast or an estimate is a forest plot
  of one measure, as \code{"difference"} or \code{"ratio"}: a line for each outcome and pair of arms, with its interval, and what notes say
  below it. Several answers that are bound together by \code{rbind} stand in one drawing. A drawing of ggplot2 doesn't know the size of its paper, so its edges go
  round names less well than those of \code{plot}.
}
\seealso{\code{\link{plot.causal_diagram}}}
\examples{
diagram <- causal_diagram("dag { T [exposure] R [outcome] S -> T S -> R T -> R }")
if (requireNamespace("ggplot2", quietly = TRUE)) {
  answer <- contrast(diagram, kidney_stones, treated = "A", control = "B",
                     count = "count", resamples = 50, seed = 1)
  print(ggplot2::autoplot(answer, measure = "ratio"))
}
}
