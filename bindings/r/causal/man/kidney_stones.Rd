\name{kidney_stones}
\alias{kidney_stones}
\docType{data}
\title{Treatment of Kidney Stones}
\description{
  Success of two treatments of kidney stones, by the size of the stones, which decided both about the treatment and its success.
}
\usage{kidney_stones}
\format{
  A data frame of 8 rows: \code{S}, the size of the stones; \code{T}, the treatment (A open surgery, B percutaneous
  nephrolithotomy); \code{R}, the result; and \code{count}, the number of patients.
}
\source{
  C. R. Charig, D. R. Webb, S. R. Payne and J. E. A. Wickham (1986). Comparison of treatment of renal calculi by open surgery,
  percutaneous nephrolithotomy, and extracorporeal shockwave lithotripsy. \emph{British Medical Journal} 292, 879--882.
}
\examples{
xtabs(count ~ T + R + S, kidney_stones)
}
\keyword{datasets}
