\name{report}
\alias{report}
\alias{print.causal_report}
\title{One Document of an Analysis}
\description{
  Writes what an analysis of an effect should tell: the diagram, the formula with its derivation, the sets to adjust for, where records
  lack, crude and adjusted values with their intervals, the estimate by models, bounds, E-values, and tests of what the diagram implies.
}
\usage{
report(diagram, data, x = NULL, y = NULL, treated = NULL, control = NULL,
       outcome = NULL, file = NULL, format = c("html", "markdown", "latex"),
       title = "Analysis of an effect", set = NULL, count = NULL, level = 0.95,
       resamples = 1000, seed = 0, missing = c("error", "drop", "level"),
       permutations = 1000, progress = NULL)
}
\arguments{
  \item{diagram, data, x, y, treated, control, outcome, set, count, level, resamples, seed, missing}{as in \code{\link{contrast}}.}
  \item{file}{the file that is written; \code{NULL} for none.}
  \item{format}{the form of the document; by the end of the file's name where there is one.}
  \item{title}{its title.}
  \item{permutations}{as in \code{\link{test_implications}}.}
  \item{progress}{as in \code{\link{contrast}}, of the document's parts.}
}
\details{
  A part that has no answer says why. Where the effect has no formula, the hedge and the bounds stand in its place. HTML needs no script and no other file, and has the
  drawing where R can make one as SVG; Markdown has its formula in LaTeX, for \pkg{knitr} and
  pandoc; LaTeX compiles by itself, with \code{amsmath} and \code{geometry}.
}
\value{A list of the class \code{causal_report} with the \code{lines} of the document and its \code{parts}, invisibly where a file is written.}
\examples{
diagram <- causal_diagram("dag { T [exposure] R [outcome] S -> T S -> R T -> R }")
report(diagram, kidney_stones, treated = "A", control = "B", outcome = "success",
       count = "count", resamples = 20, permutations = 20, format = "markdown")
}
