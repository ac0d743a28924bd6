# How estimates move with the weight of a record: as the influence functions have it, which make intervals.
library(causal)
own <- function(name) getFromNamespace(name, "causal")
near <- function(a, b, by = 1e-5) stopifnot(length(a) == length(b), all(abs(a - b) < by))
set.seed(11)
n <- 120
A <- rnorm(n)
X <- rbinom(n, 1, plogis(A))
data <- data.frame(A, X, Y = rbinom(n, 1, plogis(A + X)), cost = rnorm(n, X + A), grade = sample(c("low", "middle", "high"), n, TRUE), C = rbinom(n, 1, 0.4))

moves_with_weights <- function(outcome, method, model, set = "A") {
  diagram <- causal_diagram(paste0("dag { X [exposure] ", outcome, " [outcome] ", set, " -> X ", set, " -> ", outcome, " X -> ", outcome, " }"))
  asked <- own("asked_for_models")(diagram, NULL, NULL, set, NULL, method, FALSE, NULL, NULL)
  table <- own("model_table")(asked, data, NULL, "error", NULL, NULL, NULL)
  options <- list(models = own("read_models")(model), smoothing = 0, factors = character(), draws = 10)
  targets <- own("model_targets")(asked, table, NULL)
  estimator <- own("set_estimator")(asked, table, own("model_arms")(asked, table, 1, 0), targets, options, method)
  weights <- own("table_weights")(table)
  point <- estimator$answer(weights)
  stopifnot(estimator$has_moves(point))
  moves <- estimator$moves(weights, point)
  for (row in c(1, 4, length(weights))) {
    step <- 1e-4
    at <- function(by) estimator$answer(replace(weights, row, weights[row] + by))$values$treated
    near((at(step) - at(-step)) / (2 * step) * sum(weights), moves$treated[row, ], if (outcome == "grade") 1e-2 else 1e-4)
  }
}
for (method in c("formula", "ipw", "aipw")) {
  moves_with_weights("Y", method, "logistic")
  moves_with_weights("cost", method, "logistic")
  moves_with_weights("Y", method, "table", "C")
}
if (nzchar(system.file(package = "nnet"))) for (method in c("formula", "aipw")) moves_with_weights("grade", method, "logistic")

# The same of the terms of a formula: a front door, the napkin, the treated, a mean, and a trial beside observations
tree_moves_with_weights <- function(diagram, data, outcome = NULL, trials = NULL, experiments = NULL, model = "logistic", among = NULL, rows = 12) {
  asked <- own("asked_for_models")(causal_diagram(diagram), "X", "Y", NULL, NULL, "formula", TRUE, among, experiments)
  table <- own("model_table")(asked, data, NULL, "error", NULL, trials, NULL)
  options <- list(models = own("read_models")(model), smoothing = 0, factors = character(), draws = 10)
  targets <- own("model_targets")(asked, table, outcome)
  estimator <- own("formula_estimator")(asked, table, own("model_arms")(asked, table, 1, 0), targets, options)
  weights <- own("table_weights")(table)
  point <- estimator$answer(weights)
  stopifnot(estimator$has_moves(point))
  moves <- estimator$moves(weights, point)
  for (row in unique(round(seq(1, length(weights), length.out = rows)))) for (arm in c("treated", "control")) {
    step <- 1e-4 * weights[row]
    at <- function(by) estimator$answer(replace(weights, row, weights[row] + by))$values[[arm]]
    found <- (at(step) - at(-step)) / (2 * step) * sum(weights)
    near(found, moves[[arm]][row, ], 1e-4 * max(1, abs(found)))
  }
  # the weighted sum of the moves is 0: more records of all kinds change nothing
  stopifnot(abs(sum(weights * moves$treated)) < 1e-6 * sum(weights))
}
m <- 400
W <- sample(0:2, m, TRUE)
U <- rbinom(m, 1, 0.5)
Z <- rbinom(m, 1, 0.2 + 0.2 * W)
X <- rbinom(m, 1, 0.2 + 0.4 * Z + 0.2 * U)
M <- rbinom(m, 1, 0.2 + 0.5 * X)
seen <- data.frame(W, Z, X, M, Y = rbinom(m, 1, 0.1 + 0.4 * M + 0.3 * U))
door <- "dag { X -> M -> Y X <-> Y }"
tree_moves_with_weights(door, seen, 1)
tree_moves_with_weights(door, seen, 1, model = "table")
tree_moves_with_weights(door, transform(seen, Y = Y + M + W), NULL)
tree_moves_with_weights("dag { W -> Z -> X -> Y W <-> X W <-> Y }", seen, 1)
tree_moves_with_weights("dag { W -> X W -> Y X -> Y }", seen, 1, among = 1)
parts <- "dag { X -> M -> Y X <-> M W -> Y W -> X }"
trial <- data.frame(X = rep(0:1, 40), M = rbinom(80, 1, 0.2 + 0.5 * rep(0:1, 40)))
tree_moves_with_weights(parts, seen, 1, trials = list(trial), experiments = list("X"))

# Their intervals are as wide as those of resamples, within what 100 of these leave
by <- function(...) {
  found <- estimate(parts, seen, "X", "Y", treated = 1, control = 0, outcome = 1, trials = list(X = trial), ...)
  stopifnot(all(found$measure == names(own("measures"))))
  c(found$conf_high - found$conf_low)[found$measure == "difference"]
}
stopifnot(abs(by() / by(resamples = 100) - 1) < 0.4)
