# Estimates by models: against base R's regressions by hand, against exact values, and against the package survey.
library(causal)
same <- function(a, b) stopifnot(identical(a, b))
near <- function(a, b, by = 1e-10) stopifnot(length(a) == length(b), all(abs(a - b) < by))
refused <- function(call, words) {
  caught <- tryCatch({ call; NULL }, error = identity)
  stopifnot(inherits(caught, "causal_refusal"), grepl(words, conditionMessage(caught), fixed = TRUE))
}
doubted <- function(call) {
  found <- character()
  withCallingHandlers(call, causal_doubt = function(it) {
    found <<- c(found, conditionMessage(it))
    invokeRestart("muffleWarning")
  })
  found
}
set.seed(3)
n <- 1000
A <- rnorm(n)
B <- sample(c("a", "b", "c"), n, TRUE)
X <- rbinom(n, 1, plogis(0.5 * A + 0.3 * (B == "b")))
Y <- rbinom(n, 1, plogis(-1 + 0.8 * X + 0.6 * A + 0.5 * (B == "c")))
data <- data.frame(A, B, X, Y, cost = rnorm(n, 2 * X + A))
diagram <- causal_diagram("dag { X [exposure] Y [outcome] A -> X A -> Y B -> X B -> Y X -> Y }")

# Standardisation, as by hand; the numbers of a confounder need no classes
tight <- list(epsilon = 1e-12)
by_hand <- function(formula, family, response) {
  fit <- glm(formula, family, data, control = tight)
  means <- vapply(1:0, function(x) mean(predict(fit, transform(data, X = x), "response")), 0)
  c(means, means[1] - means[2])
}
answer <- estimate(diagram, data, resamples = 20)
near(answer$estimate[1:3], by_hand(Y ~ X + A + B, binomial), 1e-10)
near(answer$estimate[4], answer$estimate[1] / answer$estimate[2])
near(estimate(diagram, data, model = list(Y = ~ X * A + B), resamples = 0)$estimate[1:3], by_hand(Y ~ X * A + B, binomial), 1e-10)
near(estimate(diagram, data, set = c("A", "B"), model = ~ X + A + B, resamples = 0)$estimate[1:3], by_hand(Y ~ X + A + B, binomial), 1e-10)
costs <- causal_diagram("dag { X [exposure] cost [outcome] A -> X A -> cost X -> cost }")
found <- estimate(costs, data, resamples = 10)
same(found$measure, c("mean_treated", "mean_control", "difference", "ratio"))
near(found$estimate[1:3], by_hand(cost ~ X + A, gaussian), 1e-9)
shown <- capture.output(print(answer))
stopifnot(grepl("^computed: by these models, over adjustment for \\{A,B\\}", shown[1]), grepl("logistic: Y ~ X \\+ A \\+ B", shown[2]))
stopifnot(answer$conf_low < answer$estimate, answer$estimate < answer$conf_high, answer$note == "")
same(names(answer), c("Y", "treated", "control", "measure", "estimate", "std_error", "conf_low", "conf_high", "note"))
same(answer, estimate(diagram, data, resamples = 20))

# Weights, as by hand; and the doubly robust estimator with the variance of its influence function
chance <- fitted(glm(X ~ A + B, binomial, data, control = tight))
weighted <- estimate(diagram, data, method = "ipw", resamples = 0)
near(weighted$estimate[1:2], c(weighted.mean(Y, X / chance), weighted.mean(Y, (1 - X) / (1 - chance))), 1e-9)
fit <- glm(Y ~ X + A + B, binomial, data, control = tight)
fitted_at <- function(x) predict(fit, transform(data, X = x), "response")
parts <- list(fitted_at(1) + X / chance * (Y - fitted_at(1)), fitted_at(0) + (1 - X) / (1 - chance) * (Y - fitted_at(0)))
robust <- estimate(diagram, data, method = "aipw")
near(robust$estimate[1:3], c(mean(parts[[1]]), mean(parts[[2]]), mean(parts[[1]] - parts[[2]])), 1e-9)
# the fits add little where both models are right
near(robust$std_error[3], sd(parts[[1]] - parts[[2]]) / sqrt(n), 1e-3)
near(robust$conf_high[3] - robust$conf_low[3], 2 * qnorm(0.975) * robust$std_error[3], 1e-9)
balance <- attr(robust, "balance")
stopifnot(abs(balance$after) < 0.05, max(abs(balance$before)) > 0.4, attr(robust, "diagnostics")$effective < attr(robust, "diagnostics")$records)
pdf(NULL)
same(plot(robust), balance)
invisible(dev.off())
invisible(capture.output(print(summary(robust))))

# One of the two models may be wrong
truth <- mean(plogis(-1 + 0.8 + 0.6 * A + 0.5 * (B == "c")) - plogis(-1 + 0.6 * A + 0.5 * (B == "c")))
for (model in list(list(Y = ~ X, "logistic"), list(X = ~ B, "logistic"))) {
  found <- estimate(diagram, data, method = "aipw", model = model)
  stopifnot(found$conf_low[3] < truth, truth < found$conf_high[3])
}

# By a table without smoothing: the exact values, in each kind of formula
flip <- function(chance) rbinom(n, 1, chance)
W <- flip(0.5)
Z <- flip(0.3 + 0.4 * W)
M <- flip(0.2 + 0.5 * X)
classes <- data.frame(W, Z, X, M, Y, C = flip(0.4))
for (text in c("X -> M -> Y X <-> Y", "W -> Z -> X -> Y W <-> X W <-> Y", "C -> X C -> Y X -> Y", "X -> Y", "C -> X C -> M X -> M -> Y X <-> Y")) {
  it <- causal_diagram(paste("dag { X [exposure] Y [outcome]", text, "}"))
  exact <- contrast(it, classes, outcome = 1, resamples = 30)
  found <- estimate(it, classes, outcome = 1, model = "table", smoothing = 0, resamples = 30)
  near(found$estimate, exact$estimate)
  near(c(found$conf_low, found$conf_high), c(exact$conf_low, exact$conf_high))
}
found <- estimate("dag { C -> X C -> Y X -> Y }", classes, "X", "Y", given = "C", model = "table", smoothing = 0, resamples = 0)
exact <- contrast("dag { C -> X C -> Y X -> Y }", classes, "X", "Y", given = "C", outcome = 1, resamples = 0)
near(found$estimate, exact$estimate)
front <- causal_diagram("dag { X [exposure] Y [outcome] X -> M -> Y X <-> Y }")
stopifnot(grepl("over the formula sum\\{M\\}", capture.output(print(estimate(front, classes, resamples = 5)))[1]))
near(estimate(front, transform(classes, Y = 3 * Y + W), model = "table", smoothing = 0, resamples = 0)$estimate[1:3],
     as.data.frame(effect_means(front, transform(classes, Y = 3 * Y + W), resamples = 0, control = 0))$estimate[c(3, 1, 4)])
# a table that lacks cells has a value by smoothing
thin <- data.frame(C = c(0, 0, 0, 1, 1, 1), X = c(0, 1, 1, 0, 0, 0), Y = c(0, 1, 0, 1, 1, 0))
stopifnot(is.finite(estimate("dag { C -> X C -> Y X -> Y }", thin, "X", "Y", model = "table", resamples = 0)$estimate))

# Counts stand for records
counted <- aggregate(list(n = rep(1, n)), classes[c("C", "X", "Y")], sum)
confounded <- causal_diagram("dag { X [exposure] Y [outcome] C -> X C -> Y X -> Y }")
near(estimate(confounded, counted, count = "n", resamples = 0)$estimate, estimate(confounded, classes, resamples = 0)$estimate)
near(estimate(confounded, counted, count = "n", method = "aipw")$std_error, estimate(confounded, classes, method = "aipw")$std_error, 1e-7)

# What speaks against a number stands beside it
apart <- data.frame(C = rep(0:1, each = 20), X = rep(0:1, 20), Y = rep(0:1, each = 20))
found <- doubted(answer <- estimate(confounded, apart, resamples = 0))
stopifnot(grepl("perfect separation", found), grepl("perfect separation", answer$note), any(grepl("perfect separation", capture.output(print(answer)))))
refused(estimate(diagram, data, model = list(Y = ~ X + Age)), "the model of Y reads Age, and its term P(Y|X,A,B) isn't given it")
refused(estimate(diagram, data, model = list(Y = ~ X + poly(A, 40))), "the model of P(Y|X,A,B) can't be fitted: ")
no_fit <- list(fit = function(data, response, weights) stop("no room"), predict = function(fitted, data) 0)
no_prediction <- list(fit = function(data, response, weights) 0, predict = function(fitted, data) stop("no way"))
refused(estimate(diagram, data, model = no_fit), "the model of P(Y|X,A,B) can't be fitted: no room")
refused(estimate(diagram, data, model = no_prediction), "can't be fitted: no way")
stopifnot(identical(getFromNamespace("watched", "causal")(glm.fit(cbind(1, A), X, family = binomial(), control = list(maxit = 1)))$notes, "the fit has not converged"))
refused(estimate(diagram, data, model = "forest"), "a model is one of logistic, multinomial, linear, table")
refused(estimate(diagram, data, model = "logistik"), "did you mean logistic?")
refused(estimate(diagram, data, model = list(Z = ~ A)), "a model of Z, which isn't modelled here; these are Y")
refused(estimate(diagram, data, model = list(y = "table")), "did you mean Y?")
refused(estimate(diagram, data, model = list(Y ~ X, Y ~ A)), "two models of Y")
refused(estimate(diagram, data, smoothing = -1, model = "table"), "`smoothing`")
refused(estimate(diagram, data, factors = "C"), "`factors` names C")
refused(estimate(diagram, data, interval = "bca"), "`interval` is \"influence\", \"percentile\"")
refused(estimate(diagram, data, set = "A"), "this set can't be adjusted for")
refused(estimate("dag { X -> Y X <-> Y }", data, "X", "Y"), "not identifiable")
refused(estimate(front, classes, method = "aipw"), "no set can be adjusted for")
refused(estimate(diagram, data, weights = "v"), "the data have no column v")
near(estimate("dag { X -> Y }", data, "X", "Y", resamples = 0)$estimate[1:2], c(mean(Y[X == 1]), mean(Y[X == 0])))

# More than two levels, by nnet
if (nzchar(system.file(package = "nnet"))) {
  data$grade <- factor(ifelse(runif(n) < plogis(A), "high", ifelse(X == 1 & runif(n) < 0.6, "low", "middle")), c("low", "middle", "high"))
  grades <- causal_diagram("dag { X [exposure] grade [outcome] A -> X A -> grade X -> grade }")
  found <- estimate(grades, data, resamples = 0)
  fit <- nnet::multinom(grade ~ X + A, data, trace = FALSE, maxit = 500, reltol = 1e-12)
  wanted <- lapply(1:0, function(x) colMeans(predict(fit, transform(data, X = x), "probs")))
  near(found$estimate[found$measure == "risk_treated"], unname(wanted[[1]]), 1e-5)
  near(found$estimate[found$measure == "risk_control"], unname(wanted[[2]]), 1e-5)
  same(attr(found, "models")$kind, "multinomial")
  near(estimate(diagram, data, model = "multinomial", resamples = 0)$estimate, answer <- estimate(diagram, data, resamples = 0)$estimate, 1e-5)
} else cat("skipped: multinomial: no package nnet\n")

# Surveys: weights, clusters and strata, as the package survey has them on its own example data
if (nzchar(system.file(package = "survey"))) {
  suppressPackageStartupMessages(library(survey))
  data(api, package = "survey")
  schools <- function(data) transform(data, awards = as.character(awards), wide = as.integer(sch.wide == "Yes"))
  plain <- causal_diagram("dag { wide [exposure] api00 [outcome] wide -> api00 }")
  meals <- causal_diagram("dag { wide [exposure] api00 [outcome] meals -> wide meals -> api00 wide -> api00 }")
  designs <- list(list(data = schools(apiclus1), clusters = "dnum", strata = NULL), list(data = schools(apistrat), clusters = NULL, strata = "stype"))
  for (it in designs) {
    as_survey <- svydesign(ids = if (is.null(it$clusters)) ~ 1 else ~ dnum, strata = if (!is.null(it$strata)) ~ stype, weights = ~ pw, data = it$data)
    call <- function(diagram, ...) estimate(diagram, it$data, weights = "pw", clusters = it$clusters, strata = it$strata, ...)
    means <- svyby(~ api00, ~ wide, as_survey, svymean)
    found <- call(plain, method = "aipw")
    near(found$estimate[2:1], unname(coef(means)), 1e-8)
    near(found$std_error[2:1], unname(SE(means)), 1e-8)
    # by resamples, within the error of simulation
    drawn <- call(plain, resamples = 400)
    near(drawn$estimate, found$estimate, 1e-8)
    stopifnot(abs(drawn$std_error / found$std_error - 1) < 0.2)
    fit <- svyglm(api00 ~ wide + meals, as_survey)
    near(call(meals, resamples = 0)$estimate[3], unname(coef(fit)["wide"]), 1e-7)
    replicates <- as.svrepdesign(as_survey, type = "subbootstrap", replicates = 400)
    error <- SE(svyglm(api00 ~ wide + meals, replicates))[["wide"]]
    stopifnot(abs(call(meals, resamples = 400)$std_error[3] / error - 1) < 0.25)
    # and the exact values, over a binary outcome
    two <- transform(it$data, api00 = as.integer(api00 > 650))
    as_survey <- update(as_survey, high = as.integer(api00 > 650))
    shares <- svyby(~ high, ~ wide, as_survey, svymean)
    exact <- contrast(plain, two, outcome = 1, weights = "pw", clusters = it$clusters, strata = it$strata, resamples = 400)
    near(exact$estimate[2:1], unname(coef(shares)), 1e-9)
    width <- (exact$conf_high - exact$conf_low)[2:1] / (2 * qnorm(0.975))
    stopifnot(abs(width / unname(SE(shares)) - 1) < 0.25)
  }
  refused(contrast(plain, transform(schools(apiclus1), api00 = api00 > 650, s = dnum), weights = "pw", clusters = "dnum", strata = "s", resamples = 5), "has one cluster")
} else cat("skipped: survey: no package survey\n")

# E-values, as they are published: a ratio of 3.9 with an interval from 1.8 has 7.26 and 3.0 (VanderWeele and Ding, 2017)
found <- e_value(c(3.9, 0.8), c(1.8, 0.7), c(8.7, 1.1))
near(round(found$e_value, 2), c(7.26, 1.81))
near(round(found$e_value_interval, 1), c(3.0, 1.0))
same(e_value(robust)$ratio, robust$estimate[4])
refused(e_value(-1), "above 0")

# Sets that should agree, beside the crude comparison, and what is known without any
sets <- compare(confounded, classes, outcome = 1, resamples = 50)
same(sets$set, c("crude", "formula", "{C}"))
same(sets$by, rep("counts", 3))
same(sets$estimate[3], contrast(confounded, classes, outcome = 1, set = "C", resamples = 0)$estimate[3])
same(sets$e_value[2], e_value(contrast(confounded, classes, outcome = 1, resamples = 0))$e_value)
bounds <- bounds_effect(confounded, classes, treated = 1, control = 0, outcome = 1)
same(bounds$measure, c("risk_treated", "risk_control", "difference"))
beside <- attr(sets, "bounds")
near(c(beside$at_least, beside$at_most), c(bounds$at_least[1] - bounds$at_most[2], bounds$at_most[1] - bounds$at_least[2]))
stopifnot(beside$at_least < sets$estimate[3], sets$estimate[3] < beside$at_most, any(grepl("^natural bounds of the risk difference", capture.output(print(sets)))))
stopifnot(any(grepl("common values", capture.output(print(sets)))))
pdf(NULL)
plot(sets)
plot(contrast(confounded, classes, outcome = 1, resamples = 20), "ratio")
plot(adjustment_sets(confounded))
invisible(dev.off())
# thin counts: the row says that it is by models
apart_sets <- compare(confounded, thin <- data.frame(C = rep(0:2, c(30, 30, 5)), X = c(rep(0:1, 30), rep(1, 5)), Y = rep(c(0, 1, 1, 0, 1), 13)), outcome = 1, resamples = 20)
same(apart_sets$by[c(1, 3)], c("counts", "models"))
stopifnot(any(grepl("^by models: computed", capture.output(print(apart_sets)))))

# A model of the caller's own, categories that are numbers, and a side that names its variable
mine <- list(fit = function(data, response, weights) glm.fit(cbind(1, as.matrix(data)), as.integer(response) - 1, weights, family = quasibinomial(), control = tight)$coefficients,
             predict = function(fitted, data) plogis(drop(cbind(1, as.matrix(data)) %*% fitted)))
near(estimate(confounded, classes, model = mine, resamples = 0)$estimate, estimate(confounded, classes, resamples = 0)$estimate)
stopifnot(any(grepl("the caller's own: Y by", capture.output(print(estimate(confounded, classes, model = list(Y = mine), resamples = 0))))))
dose <- transform(data, X = X + (A > 1))
near(estimate(diagram, dose, treated = 2, control = 0, resamples = 0)$estimate[1], mean(predict(glm(Y ~ factor(X) + A + B, binomial, dose, control = tight), transform(dose, X = 2), "response")))
near(estimate(diagram, dose, treated = 2, control = 0, model = ~ X + A + B, resamples = 0)$estimate[1],
     mean(predict(glm(Y ~ X + A + B, binomial, dose, control = tight), transform(dose, X = 2), "response")))
near(estimate(diagram, data, model = list(Y ~ X * A + B), resamples = 0)$estimate[1:3], by_hand(Y ~ X * A + B, binomial), 1e-10)
