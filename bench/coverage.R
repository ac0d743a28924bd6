#!/usr/bin/env Rscript
# coverage.R [STUDIES] [SCENARIO ..]: how often 95% intervals of the R package cover the truth in simulated studies; all scenarios unless some
# are named. It prints a line for each, with the standard error of the coverage. The package has to be installed.
suppressMessages(library(causal))
words <- commandArgs(TRUE)
studies <- if (length(words)) as.integer(words[1]) else 300
flip <- function(chance) stats::rbinom(length(chance), 1, chance)
confounded <- causal_diagram("dag { X [exposure] Y [outcome] C -> X C -> Y X -> Y }")
two <- causal_diagram("dag { X [exposure] Y [outcome] A -> X A -> Y B -> X B -> Y X -> Y }")
front <- causal_diagram("dag { X [exposure] Y [outcome] X -> M -> Y X <-> Y }")
difference <- function(answer) unlist(as.data.frame(answer)[answer$measure == "difference", c("conf_low", "conf_high")])

binary_study <- function(n) {
  C <- flip(rep(0.5, n))
  X <- flip(0.3 + 0.4 * C)
  data.frame(C, X, Y = flip(0.2 + 0.2 * X + 0.3 * C))
}
# two confounders of four levels, with a logistic truth
logistic_study <- function(n) {
  A <- stats::rbinom(n, 3, 0.35)
  B <- stats::rbinom(n, 3, 0.35)
  X <- flip(stats::plogis(-1 + 0.5 * A + 0.3 * B))
  data.frame(A, B, X, Y = flip(stats::plogis(-1.5 + 0.7 * X + 0.4 * A + 0.3 * B)))
}
logistic_truth <- local({
  cells <- expand.grid(A = 0:3, B = 0:3)
  chance <- function(x) sum(stats::dbinom(cells$A, 3, 0.35) * stats::dbinom(cells$B, 3, 0.35) * stats::plogis(-1.5 + 0.7 * x + 0.4 * cells$A + 0.3 * cells$B))
  chance(1) - chance(0)
})
front_study <- function(n) {
  U <- flip(rep(0.5, n))
  X <- flip(0.3 + 0.4 * U)
  M <- flip(0.2 + 0.6 * X)
  data.frame(X, M, Y = flip(0.1 + 0.4 * M + 0.3 * U))
}
# a front door through a number, and pupils of schools that are drawn
number_study <- function(n) {
  U <- flip(rep(0.5, n))
  X <- flip(0.3 + 0.4 * U)
  M <- stats::rnorm(n, X)
  data.frame(X, M, Y = flip(stats::plogis(-1 + M + U)))
}
number_truth <- local({
  chance <- function(x) stats::integrate(function(m) stats::dnorm(m, x) * (stats::plogis(-1 + m) + stats::plogis(m)) / 2, -9, 10)$value
  chance(1) - chance(0)
})
# the same truth among those with X = 1
treated_truth <- local({
  cells <- expand.grid(A = 0:3, B = 0:3)
  weight <- stats::dbinom(cells$A, 3, 0.35) * stats::dbinom(cells$B, 3, 0.35) * stats::plogis(-1 + 0.5 * cells$A + 0.3 * cells$B)
  chance <- function(x) sum(weight * stats::plogis(-1.5 + 0.7 * x + 0.4 * cells$A + 0.3 * cells$B)) / sum(weight)
  chance(1) - chance(0)
})
# observations of V, W and Y, and a trial of X, half as large, in which W was measured
parts <- causal_diagram("dag { X [exposure] Y [outcome] X -> W -> Y X <-> W V -> Y V -> X }")
parts_study <- function(n) {
  U <- flip(rep(0.5, n))
  V <- flip(rep(0.5, n))
  W <- flip(0.2 + 0.4 * flip(0.2 + 0.3 * V + 0.3 * U) + 0.2 * U)
  X <- rep(0:1, n / 4)
  list(seen = data.frame(V, W, Y = flip(stats::plogis(-1 + 1.2 * W + 0.7 * V))), trial = data.frame(X, W = flip(0.2 + 0.4 * X + 0.2 * flip(rep(0.5, n / 2)))))
}
parts_truth <- 0.4 * mean(stats::plogis(0.2 + 0.7 * 0:1) - stats::plogis(-1 + 0.7 * 0:1))
# a mediator with a confounder, a logistic truth
through <- causal_diagram("dag { X [exposure] Y [outcome] C -> X -> M -> Y X -> Y C -> M C -> Y }")
mediator <- function(c, x) stats::plogis(-1 + 1.2 * x + 0.8 * c)
mediated_outcome <- function(c, x, m) stats::plogis(-1.5 + 0.6 * x + m + 0.7 * c)
mediated_study <- function(n) {
  C <- flip(rep(0.5, n))
  X <- flip(0.3 + 0.4 * C)
  M <- flip(mediator(C, X))
  data.frame(C, X, M, Y = flip(mediated_outcome(C, X, M)))
}
world <- function(x, other) {
  cells <- expand.grid(C = 0:1, M = 0:1)
  chance <- mediator(cells$C, other)
  sum(ifelse(cells$M == 1, chance, 1 - chance) * mediated_outcome(cells$C, x, cells$M)) / 2
}
part_by_models <- function(measure) {
  answer <- mediate(through, mediated_study(500), through = "M", treated = 1, control = 0, outcome = 1, model = "logistic")
  unlist(as.data.frame(answer)[answer$measure == measure, c("conf_low", "conf_high")])
}
school_study <- function(schools) {
  school <- rep(seq_len(schools), each = 20)
  C <- flip(0.3 + 0.4 * stats::runif(schools)[school])
  X <- flip(0.3 + 0.4 * C)
  data.frame(school, C, X, Y = flip(0.2 + 0.2 * X + 0.2 * C + 0.2 * stats::runif(schools)[school]))
}
scenarios <- list(
  confounder_500 = list(0.2, function() difference(contrast(confounded, binary_study(500), outcome = 1, resamples = 300, seed = NULL))),
  confounder_100 = list(0.2, function() difference(contrast(confounded, binary_study(100), outcome = 1, resamples = 300, seed = NULL))),
  front_door_400 = list(0.24, function() difference(contrast(front, front_study(400), outcome = 1, resamples = 300, seed = NULL))),
  logistic_300 = list(logistic_truth, function() difference(estimate(two, logistic_study(300)))),
  logistic_1000 = list(logistic_truth, function() difference(estimate(two, logistic_study(1000)))),
  logistic_resampled_300 = list(logistic_truth, function() difference(estimate(two, logistic_study(300), resamples = 200, seed = NULL))),
  ipw_1000 = list(logistic_truth, function() difference(estimate(two, logistic_study(1000), method = "ipw"))),
  front_door_number_500 = list(number_truth, function() difference(estimate(front, number_study(500), resamples = 200, seed = NULL, draws = 300))),
  front_door_models_400 = list(0.24, function() difference(estimate(front, front_study(400)))),
  treated_500 = list(treated_truth, function() difference(estimate(two, logistic_study(500), observed = 1))),
  trial_600 = list(parts_truth, function() {
    study <- parts_study(600)
    difference(estimate(parts, study$seen, trials = list(X = study$trial)))
  }),
  direct_models_500 = list(world(1, 0) - world(0, 0), function() part_by_models("direct")),
  indirect_models_500 = list(world(1, 1) - world(1, 0), function() part_by_models("indirect")),
  schools_40 = list(0.2, function() difference(estimate(confounded, school_study(40), method = "aipw", clusters = "school"))),
  aipw_1000 = list(logistic_truth, function() difference(estimate(two, logistic_study(1000), method = "aipw"))),
  aipw_wrong_outcome = list(logistic_truth, function() difference(estimate(two, logistic_study(1000), method = "aipw", model = list(Y = ~ X, "logistic")))),
  aipw_wrong_arm = list(logistic_truth, function() difference(estimate(two, logistic_study(1000), method = "aipw", model = list(X = ~ 1, "logistic"))))
)
named <- if (length(words) > 1) words[-1] else names(scenarios)
for (name in named) {
  set.seed(1)
  ends <- vapply(seq_len(studies), function(study) tryCatch(suppressWarnings(scenarios[[name]][[2]]()), causal_refusal = function(it) c(NA, NA)), c(0, 0))
  truth <- scenarios[[name]][[1]]
  known <- !is.na(ends[1, ])
  covers <- ends[1, known] <= truth & truth <= ends[2, known]
  cat(sprintf("%-20s %5.1f %% (se %.1f) of %d studies; %d without an interval\n", name, 100 * mean(covers), 100 * sqrt(mean(covers) * (1 - mean(covers)) / length(covers)), length(covers), sum(!known)))
}
