\name{estimate}
\alias{estimate}
\alias{print.causal_estimate}
\alias{summary.causal_estimate}
\alias{plot.causal_estimate}
\alias{as.data.frame.causal_estimate}
\title{Estimates by Models, Where Tables Are Thin}
\description{
  Estimates an effect by models of the terms of the formula of \code{\link{identify_effect}}, or by regression, weights or both for a
  set to adjust for.
}
\usage{
estimate(diagram, data, x = NULL, y = NULL, treated = NULL, control = NULL,
         outcome = NULL, method = c("formula", "ipw", "aipw"),
         model = "logistic", set = NULL, given = NULL, count = NULL,
         level = 0.95, resamples = NULL, seed = 0,
         missing = c("error", "drop", "level"), weights = NULL,
         clusters = NULL, strata = NULL, smoothing = 1, at = NULL,
         short = is.null(set), progress = NULL, interval = NULL,
         factors = character(), observed = NULL, trials = NULL,
         experiments = NULL, draws = 1000)

\method{plot}{causal_estimate}(x, ...)
}
\arguments{
  \item{diagram, data, x, y, treated, control, outcome, given, count, level, seed, missing, weights, clusters, strata, at, short, progress}{as
    in \code{\link{contrast}}; in the method \code{x} is an estimate.}
  \item{method}{\code{"formula"} sums the models as the formula says; \code{"ipw"} weights by the inverse chance of the arm;
    \code{"aipw"} is the doubly robust estimator, which is right where the outcome's model or the arm's model is. The last two need a set.}
  \item{model}{a word for all variables, \code{"logistic"}, \code{"multinomial"}, \code{"linear"} or \code{"table"}; a formula as
    \code{~ X + age}, which may be any of \code{\link{glm}}'s; a list of \code{fit(data, response, weights)} and \code{predict(fitted, data)}
    for a model of your own, which predicts a matrix with a column for each level, the chances of the second of two, or means; or a list of
    these by variable, as \code{list(Y ~ X * age, X = "logistic")}, in which an element without a name and without a left side is for all
    others. A logistic model of more than two levels is multinomial, by the package \pkg{nnet}; that of a mean is linear.}
  \item{set}{a set to adjust for, which has to be one that the library calls admissible (\code{\link{adjusts}}). Without it the formula
    is taken; where that is a standardisation over an admissible set, its members may have any number of values.}
  \item{resamples}{how many resamples are drawn for percentile intervals: 200 by default, 0 for none.}
  \item{interval}{\code{"influence"} for intervals by influence functions, also by way of the models' fits: of risks on their logit, of
    ratios on their logarithm; or \code{"percentile"} for the bootstrap, in which the models are fitted anew. By default the first, where it
    is there (models of the package's own with few coefficients, and no number that is drawn) and no \code{resamples} are asked for.}
  \item{factors}{names of numbers that are categories. Exposures with three to ten levels are so too, but in formulas that are given.}
  \item{smoothing}{for a \code{"table"}: how many records are added to each combination of what is given, with all levels alike.}
  \item{observed}{a level of the exposure: the effect among those for whom it was observed, by the formula (and not by two levels) of
    \code{\link{treated_effect}}.}
  \item{trials, experiments}{the data of trials on other variables, by what each of them set, as \code{list(Z = trial)} or
    \code{list("A,B" = trial)}; or these sets in \code{experiments}, as \code{\link{surrogate}} has them. Each term of its formula is
    fitted over the records of its own study; \code{data} is \code{NULL} where no term is observed.}
  \item{draws}{how many values are drawn where a sum is over a number of more than 50 values, or over too many combinations.}
  \item{...}{passed on to \code{\link{plot}}.}
}
\details{
  \strong{Proved} is the formula, or that the set may be adjusted for. \strong{All numbers here are computed}: by the models that the
  answer names, with R's regressions, and they are right where the models are. Where \code{\link{evaluate}} has a value it needs no
  model.

  A numeric outcome of more than two values has its mean estimated, by linear regression.

  A formula that is no standardisation, as that of a front door, is summed over the levels of its variables, each term by its models. A
  number of more than 50 values is drawn instead: of the records that have what it is given, where that has levels; else, or where
  \code{model} has a model of it, by linear regression with its residuals. The draws are the same for both arms and each resample.

  With \code{clusters} or \code{strata} a resample draws clusters within strata, one fewer than there are, with their weights raised by
  as much; the variance of the influence function is that between clusters within strata, as the package \pkg{survey} has it.

  A fit that doesn't converge, perfect separation, and chances of an arm below 0.01 are told in the column \code{note}, and by a warning
  of the class \code{causal_doubt}. A model that reads what its term isn't given, or of a variable that isn't modelled, is refused.
}
\value{
  A data frame of the class \code{causal_estimate} with the columns of \code{\link{contrast}} and \code{std_error}. Attributes:
  \code{models}, what was fitted, with the part of the deviance that it explains; \code{diagnostics}, for weights the effective sample
  size and the extreme weights; \code{balance}, how far the arms are apart in each member of the set, before and after weighting, in
  standard deviations. \code{summary} prints these, and \code{plot} draws the balance.
}
\references{
  Robins, J. M., Rotnitzky, A. and Zhao, L. P. (1994). Estimation of regression coefficients when some regressors are not always
  observed. \emph{Journal of the American Statistical Association} 89, 846--866.

  Rao, J. N. K. and Wu, C. F. J. (1988). Resampling inference with complex survey data. \emph{Journal of the American Statistical
  Association} 83, 231--241.
}
\seealso{\code{\link{contrast}}, \code{\link{support}}, \code{\link{e_value}}, \code{\link{compare}}}
\examples{
diagram <- causal_diagram("dag { X [exposure] Y [outcome] age -> X age -> Y X -> Y }")
set.seed(1)
age <- rnorm(300)
X <- rbinom(300, 1, plogis(age))
cohort <- data.frame(age, X, Y = rbinom(300, 1, plogis(X + age - 1)))
estimate(diagram, cohort, resamples = 50)
summary(estimate(diagram, cohort, method = "aipw"))
}
