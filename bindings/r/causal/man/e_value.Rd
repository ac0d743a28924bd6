\name{e_value}
\alias{e_value}
\title{How Strong Would a Hidden Cause Have to Be?}
\description{The E-value of a risk ratio, and of the end of its interval that is nearer to 1.}
\usage{e_value(ratio, conf_low = NA, conf_high = NA)}
\arguments{
  \item{ratio}{risk ratios, or an answer of \code{\link{contrast}} or \code{\link{estimate}}.}
  \item{conf_low, conf_high}{the ends of their intervals.}
}
\details{
  A hidden common cause of exposure and outcome can only bring the ratio to 1 where its risk ratio with both is at least the E-value.
  It is computed, and rests on no diagram.
}
\value{A data frame with \code{ratio}, \code{e_value} and \code{e_value_interval}, which is 1 where the interval has 1 in it.}
\references{
  VanderWeele, T. J. and Ding, P. (2017). Sensitivity analysis in observational research: introducing the E-value. \emph{Annals of
  Internal Medicine} 167, 268--274.
}
\examples{
e_value(3.9, 1.8, 8.7)
}
