# Natural effects, and how much of an effect goes through mediators: against the same by hand.
library(causal)
same <- function(a, b) stopifnot(identical(a, b))
near <- function(a, b, by = 1e-12) stopifnot(length(a) == length(b), all(abs(a - b) < by))
set.seed(4)
n <- 400
C <- rbinom(n, 1, 0.5)
X <- rbinom(n, 1, 0.3 + 0.4 * C)
M <- rbinom(n, 1, 0.2 + 0.4 * X + 0.2 * C)
seen <- data.frame(C, X, M, Y = rbinom(n, 1, 0.1 + 0.1 * X + 0.3 * M + 0.2 * C), W = rbinom(n, 1, 0.5), Z = rbinom(n, 1, 0.5))
mediated <- causal_diagram("dag { C -> X C -> M C -> Y X -> M -> Y X -> Y }")
at <- function(found, measure) found$estimate[found$measure == measure]

# against the same by hand
found <- mediate(mediated, seen, "X", "Y", through = "M", treated = 1, control = 0, outcome = 1, resamples = 200, seed = 1)
world <- function(arm, through) {
  sum(vapply(0:1, function(c) sum(vapply(0:1, function(m) {
    mean(C == c) * mean(M[C == c & X == through] == m) * mean(seen$Y[C == c & X == arm & M == m])
  }, 0)), 0))
}
near(found$estimate[1:3], c(world(1, 1), world(0, 0), world(1, 0)))
proved <- attr(found, "values")
same(names(proved), c("world", "Y", "estimate", "from", "to"))
stopifnot(all(as.numeric(proved$from) <= proved$estimate & proved$estimate <= as.numeric(proved$to)))
near(proved$estimate[proved$world == "between" & proved$Y == 1], world(1, 0))
exact <- attr(mediate(mediated, seen, "X", "Y", through = "M", treated = 1, control = 0, outcome = 1, resamples = 0, exact = TRUE), "values")
near(vapply(strsplit(exact$fraction, "/"), function(side) as.numeric(side[1]) / as.numeric(side[2]), 0), exact$estimate)
near(at(found, "total"), world(1, 1) - world(0, 0))
near(at(found, "direct"), world(1, 0) - world(0, 0))
near(at(found, "indirect"), world(1, 1) - world(1, 0))
near(at(found, "proportion"), at(found, "indirect") / at(found, "total"))
stopifnot(all(found$conf_low[1:6] < found$estimate[1:6]), all(found$conf_high[1:6] > found$estimate[1:6]))
printed <- capture.output(print(found))
stopifnot(any(grepl("formula: P(Y[X,M[X']]) = sum{C,M} P(C)", printed, fixed = TRUE)), any(grepl("200 resamples, of which 0 had no value; seed 1", printed)))
same(names(as.data.frame(found)), c("treated", "control", "measure", "estimate", "conf_low", "conf_high", "note"))

# what is nil
found <- mediate("dag { X -> M -> Y X <-> Y }", seen, "X", "Y", through = "M", outcome = 1, resamples = 20)
near(at(found, "direct"), 0)
stopifnot(any(grepl("past {M} to {Y}: the direct effect is nil", capture.output(print(found)), fixed = TRUE)))

# what is pinned
found <- mediate("dag { W -> Z -> X -> M -> Y X -> Y W <-> X W <-> M }", seen, "X", "Y", through = "M", outcome = 1, resamples = 0)
part <- function(m, x) sum(vapply(0:1, function(w) mean(seen$W == w) * with(seen, mean(X[W == w & Z == 0] == x) * mean(M[W == w & Z == 0 & X == x] == m)), 0))
near(at(found, "between"), sum(vapply(0:1, function(m) part(m, 0) / (part(0, 0) + part(1, 0)) * with(seen, mean(Y[X == 1 & M == m])), 0)))
same(attr(found, "pinned"), list(Z = 0L))
stopifnot(all(is.na(found$conf_low)))

# a mean, whose parts have opposite signs
found <- mediate(mediated, transform(seen, Y = Y + 2 * M - 3 * X), "X", "Y", through = "M", resamples = 20)
stopifnot(at(found, "direct") < 0, at(found, "indirect") > 0, grepl("opposite signs", found$note[found$measure == "proportion"]), found$note[1] == "")

# none, and refusals
found <- natural_effect("dag { X -> L -> M -> Y X -> Y L -> Y }", "X", "Y", through = "M")
stopifnot(inherits(found, "causal_no_natural"), !as.logical(found))
same(c(found$treatment, found$witness, found$joint), c("X", "L", "P(Y|do(X))"))
caught <- tryCatch(mediate("dag { X -> L -> M -> Y X -> Y L -> Y }", seen, "X", "Y", through = "M"), error = identity)
stopifnot(inherits(caught, "causal_not_identifiable"), startsWith(conditionMessage(caught), "P(Y[X,M[X']]) is not identifiable; "))
stopifnot(inherits(tryCatch(mediate(mediated, seen[!(C == 1 & X == 0), ], "X", "Y", through = "M", treated = 1, control = 0, outcome = 1), error = identity), "causal_no_value"))

# By models: a table without smoothing has the values of the counts, in each kind of formula, and logistic ones those by hand
arms <- function(diagram, data, ...) mediate(diagram, data, "X", "Y", through = "M", treated = 1, control = 0, outcome = 1, ...)
door_diagram <- "dag { X -> M -> Y X <-> Y }"
napkin_diagram <- "dag { W -> Z -> X -> M -> Y X -> Y W <-> X W <-> M }"
for (diagram in list(mediated, door_diagram, napkin_diagram)) {
  plain <- arms(diagram, seen, resamples = 0)
  tabled <- arms(diagram, seen, model = "table", smoothing = 0)
  near(tabled$estimate, plain$estimate, 1e-9)
  same(attr(tabled, "interval"), "influence")
}
by_counts <- arms(mediated, seen, resamples = 300, seed = 1)
tabled <- arms(mediated, seen, model = "table", smoothing = 0)
# (the same intervals within what 300 resamples leave)
near((tabled$conf_high - tabled$conf_low)[1:6] / (by_counts$conf_high - by_counts$conf_low)[1:6], rep(1, 6), 0.2)
own <- glm(M ~ C + X, binomial, seen)
outcome <- glm(Y ~ C + X * M, binomial, seen)
by_glm <- function(arm, through) mean(vapply(seq_len(n), function(k) {
  chance <- predict(own, data.frame(C = C[k], X = through), type = "response")
  sum(c(1 - chance, chance) * predict(outcome, data.frame(C = C[k], X = arm, M = 0:1), type = "response"))
}, 0))
modelled <- arms(mediated, seen, model = list(Y = ~ C + X * M, M = ~ C + X))
near(modelled$estimate[1:3], c(by_glm(1, 1), by_glm(0, 0), by_glm(1, 0)), 1e-10)
near(at(modelled, "direct") + at(modelled, "indirect"), at(modelled, "total"), 1e-12)
printed <- capture.output(print(modelled))
stopifnot(any(grepl("logistic: M ~ C + `X'`", printed, fixed = TRUE)), any(printed == "by these models of its terms"), any(printed == "95% intervals by influence functions"))
resampled <- arms(mediated, seen, model = "logistic", resamples = 60, interval = "percentile", seed = 2)
stopifnot(all(is.finite(resampled$conf_low)), any(grepl("60 resamples", capture.output(print(resampled)))))

# numbers, of which the formula sums over a mediator
numbers <- transform(seen, C = C + round(stats::rnorm(n), 3))
numbers$M <- 0.5 * numbers$X + 0.4 * numbers$C + stats::rnorm(n)
found <- arms(mediated, numbers, model = "logistic", resamples = 5)
stopifnot(all(is.finite(found$estimate)), any(grepl("summed over draws of C, M", capture.output(print(found)))))
means <- mediate(mediated, transform(seen, Y = Y + 2 * M + X), "X", "Y", through = "M", treated = 1, control = 0, model = "logistic")
stopifnot(at(means, "direct") > 0.5, at(means, "indirect") > 0.3)

# what speaks against a fit is told, and what can't be is refused
apart <- tryCatch(arms(mediated, transform(seen, Y = X), model = "logistic"), causal_doubt = identity)
stopifnot(grepl("perfect separation", conditionMessage(apart)))
refused <- function(call, words) stopifnot(grepl(words, conditionMessage(tryCatch(call, causal_refusal = identity)), fixed = TRUE))
refused(arms(mediated, seen, model = list(M = ~ C + W, "logistic")), "the model of M reads W, and its term P(M|C,X') isn't given it")
refused(arms(mediated, seen, model = list(Q = "table", "logistic")), "`model` has a model of Q")
refused(arms(mediated, seen, interval = "influence"), "by counts has percentile intervals")
refused(arms(mediated, seen, model = "logistic", smoothing = -1), "`smoothing`")
refused(arms(mediated, seen, model = "logistic", exact = TRUE), "aren't exact")
