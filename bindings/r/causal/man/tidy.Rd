\name{tidy}
\alias{tidy.causal_answer}
\alias{glance.causal_answer}
\title{Answers as Plain Data Frames}
\description{
  Methods for \code{tidy} and \code{glance} of the package \pkg{generics}, which \pkg{broom} gives too: \code{tidy(answer)} is a
  data frame with a row for each part of an answer, \code{glance(answer)} one with a single row for the whole.
}
\details{
  The package \pkg{generics} isn't needed; where it is loaded, before or after this one, its generics take each answer of this
  package. The data frames are plain ones, no tibbles. The columns have broom's names where it has one.

  \code{tidy} gives
  \itemize{
    \item of \code{\link{contrast}}, \code{\link{effect_means}}, \code{\link{estimate}} and \code{\link{compare}}: the answer itself, with broom's names: \code{term} (which
      measure), \code{estimate}, \code{conf.low} and \code{conf.high}, \code{NA} where there is no interval;
    \item of \code{\link{evaluate}} and \code{\link{pin_spread}}: the levels, \code{estimate}, and the fraction or the bounds
      \code{from} and \code{to} for rounding, which are no interval;
    \item of \code{\link{test_implications}}: \code{a}, \code{b}, \code{given}, \code{estimate} (Cramer's V), \code{statistic},
      \code{parameter} (the degrees of freedom), \code{p.value}, \code{adj.p.value} (after Holm), \code{method}, \code{largest},
      and \code{rmsea} with \code{rmsea.low} and \code{rmsea.high};
    \item of \code{\link{implications}}, \code{\link{instruments}}, \code{\link{support}}, \code{\link{bounds_effect}} and
      \code{\link{paths}}: its plain data frame;
    \item of a formula: \code{term} (the effect, then \code{q0}, \code{q1} and so on) and \code{expression}; of a hedge: \code{set}
      and \code{term}, a row for each vertex of each of its sets; of \code{\link{adjustment_sets}}: \code{set} and \code{term};
    \item of any other answer: \code{holds} (\code{NA} where it isn't yes or no), the open \code{path} that shows it, or \code{NA},
      and the printed \code{text}; of a diagram: its edges.
  }
  \code{glance} gives what the answer rests on, as \code{conf.level}, \code{conf.method}, \code{resamples}, \code{without_value},
  \code{seed}, \code{pinned} and \code{dropped} where there are intervals; of tests the smallest \code{adj.p.value}; of a formula or
  what stands in its place \code{target} and \code{identifiable}; of any other answer \code{holds}.
}
\examples{
diagram <- causal_diagram("dag { T [exposure] R [outcome] S -> T S -> R T -> R }")
answer <- contrast(diagram, kidney_stones, treated = "A", control = "B",
                   count = "count", resamples = 200, seed = 1)
if (requireNamespace("generics", quietly = TRUE)) {
  print(generics::tidy(answer))
  print(generics::glance(answer))
}
}
