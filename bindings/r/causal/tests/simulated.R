# Estimates of formulas that are no standardisation: by drawing what has too many values, among the treated, and over trials.
library(causal)
own <- function(name) getFromNamespace(name, "causal")
same <- function(a, b) stopifnot(identical(a, b))
near <- function(a, b, by = 1e-10) stopifnot(length(a) == length(b), all(abs(a - b) < by))
refused <- function(call, words) {
  caught <- tryCatch({ call; NULL }, error = identity)
  stopifnot(inherits(caught, "causal_refusal"), grepl(words, conditionMessage(caught), fixed = TRUE))
}
set.seed(21)
n <- 2000
flip <- function(chance) rbinom(n, 1, chance)
U <- flip(rep(0.5, n))
X <- flip(0.3 + 0.4 * U)
M <- rnorm(n, X)
Y <- flip(plogis(-1 + M + U))
front <- causal_diagram("dag { X [exposure] Y [outcome] X -> M -> Y X <-> Y }")
chance <- function(x) integrate(function(m) dnorm(m, x) * (plogis(-1 + m) + plogis(m)) / 2, -8, 9)$value
truth <- chance(1) - chance(0)

# A front door through a number: its values are drawn of the records of each arm, or by a regression
found <- estimate(front, data.frame(X, M, Y), resamples = 0)
near(found$estimate[3], truth, 0.05)
stopifnot(any(grepl("drawn from records: M by {X}", capture.output(print(found)), fixed = TRUE)), any(grepl("summed over draws of M", capture.output(print(found)))))
same(found, estimate(front, data.frame(X, M, Y), resamples = 0))
by_line <- estimate(front, data.frame(X, M, Y), model = list(M ~ X), resamples = 0)
near(by_line$estimate[3], found$estimate[3], 0.01)
stopifnot(any(grepl("linear, drawn with its residuals: M ~ X", capture.output(print(by_line)), fixed = TRUE)))
# where a sum over a table is there too, draws give the same
classes <- data.frame(X, M = round(2 * M), Y)
few <- estimate(front, classes, resamples = 0)
many <- local({
  utils::assignInNamespace("is_many", function(table, name) name == "M", "causal")
  found <- estimate(front, classes, model = list(M = "linear"), resamples = 0)
  utils::assignInNamespace("is_many", function(table, name) is.numeric(table$levels[[name]]) && length(table$levels[[name]]) > 50, "causal")
  found
})
near(few$estimate[1:3], many$estimate[1:3], 0.02)
drawn <- estimate(front, data.frame(X, M, Y)[1:300, ], resamples = 5, draws = 100)
stopifnot(drawn$conf_low[3] < drawn$conf_high[3])
refused(estimate(front, data.frame(X, M, Y), model = list(Y = "table")), "a table of Y can't be given")

# Among the treated: those with X = 1 have more of C
C <- rnorm(n)
T <- flip(plogis(C))
R <- flip(plogis(-1 + T + C))
plain <- causal_diagram("dag { T [exposure] R [outcome] C -> T C -> R T -> R }")
among <- estimate(plain, data.frame(C, T, R), observed = 1, resamples = 0)
here <- C[T == 1]
fit <- glm(R ~ T + C, binomial, data.frame(C, T, R))
wanted <- vapply(1:0, function(t) mean(predict(fit, data.frame(T = t, C = here), "response")), 0)
near(among$estimate[1:2], wanted, 2e-3)
stopifnot(any(grepl("among those for whom T=1 was observed", capture.output(print(among)))))
classes <- data.frame(C = as.integer(C > 0), T, R)
table <- estimate(plain, classes, observed = c(T = 1), model = "table", smoothing = 0, resamples = 0)
share <- function(t) sum(vapply(0:1, function(c) mean(classes$C[T == 1] == c) * mean(R[T == t & classes$C == c]), 0))
near(table$estimate[1:2], c(share(1), share(0)))
near(table$estimate[1], mean(R[T == 1]))
refused(estimate("dag { X [exposure] Y [outcome] X -> Y X <-> Y }", data.frame(X, Y), observed = 1), "among the treated has no formula")
refused(estimate(plain, classes, observed = 7), "T has no level 7")
refused(estimate(plain, classes, observed = 1, method = "ipw"), "goes by its own formula")

# Over a trial on another variable: P(Y|do(Z),X), at each arm of the trial
trial <- causal_diagram("dag { X [exposure] Y [outcome] Z -> X -> Y Z <-> X Z <-> Y }")
V <- flip(rep(0.5, n))
arm <- flip(rep(0.5, n))
its <- data.frame(Z = arm, X = flip(0.2 + 0.5 * arm), V)
its$Y <- flip(0.1 + 0.5 * its$X + 0.2 * V)
found <- estimate(trial, NULL, trials = list(Z = its), model = "table", smoothing = 0, resamples = 0, outcome = 1)
near(found$estimate[1:2], c(mean(its$Y[its$Z == 0 & its$X == 1]), mean(its$Y[its$Z == 0 & its$X == 0])))
other <- estimate(trial, NULL, experiments = "Z", trials = its, model = "table", smoothing = 0, at = list(Z = 1), resamples = 20, outcome = 1)
near(other$estimate[1], mean(its$Y[its$Z == 1 & its$X == 1]))
stopifnot(other$conf_low[3] < other$estimate[3])
refused(estimate(trial, NULL, experiments = "Z", trials = list()), "1 are wanted")
refused(estimate(plain, classes, trials = its), "a list of data by what was set")
refused(estimate(plain, classes, experiments = "Z"), "these have the data")
refused(estimate(trial, NULL, trials = list(Q = its)), "not in the graph: Q")
