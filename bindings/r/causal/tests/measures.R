# Effects as they are reported: odds ratios, means of numeric outcomes, and intervals corrected for bias.
library(causal)
part_of <- function(answer, measure, column = "estimate") as.data.frame(answer)[[column]][answer$measure == measure]
own <- function(name) getFromNamespace(name, "causal")
same <- function(a, b) stopifnot(identical(a, b))
near <- function(a, b, by = 1e-8) stopifnot(length(a) == length(b), all(abs(a - b) < by))
refusal <- function(call) conditionMessage(tryCatch(call, error = identity))
stones <- causal_diagram("dag { T [exposure] R [outcome] S -> T S -> R T -> R }")

# Odds ratios
answer <- contrast(stones, kidney_stones, treated = "A", control = "B", count = "count", resamples = 200, seed = 2)
near(part_of(answer, "odds_ratio"), (634983 / 127717)^c(1, -1) / (6231 / 1769)^c(1, -1))
stopifnot(part_of(answer, "odds_ratio", "conf_low") < part_of(answer, "odds_ratio"), part_of(answer, "odds_ratio") < part_of(answer, "odds_ratio", "conf_high"))
same(names(answer)[-1], c("treated", "control", "measure", "estimate", "conf_low", "conf_high", "note"))
same(answer$measure[1:5], c("risk_treated", "risk_control", "difference", "ratio", "odds_ratio"))
shown <- capture.output(print(answer))
stopifnot(grepl("^ +R +risk_treated +risk_control", shown[2]), any(grepl("95% percentile intervals of 200 resamples", shown)))
none <- contrast("dag { X -> Y }", data.frame(X = c(0, 0, 1, 1), Y = c(0, 0, 1, 1)), "X", "Y", resamples = 0)
stopifnot(is.na(part_of(none, "odds_ratio")), is.na(part_of(none, "ratio")[2]))

# Means
data <- data.frame(X = rep(c("a", "b"), c(4, 2)), Y = c(0, 1, 1, 2.5, -3, 1))
means <- effect_means("dag { X -> Y }", data, "X", "Y", resamples = 0)
same(means$X, rep(c("a", "b"), each = 2))
near(part_of(means, "mean"), c(9 / 8, -1))
near(part_of(means, "difference"), c(0, -1 - 9 / 8))
other <- effect_means("dag { X -> Y }", data, "X", "Y", control = "b", resamples = 0)
near(part_of(other, "difference"), c(9 / 8 + 1, 0))
set.seed(4)
X <- rbinom(1500, 1, 0.5)
data <- data.frame(X, Y = rbinom(1500, 3, 0.3 + 0.2 * X))
for (interval in c("percentile", "bca")) {
  means <- effect_means("dag { X -> Y }", data, "X", "Y", resamples = 200, seed = 1, interval = interval)
  truth <- 3 * (0.3 + 0.2 * 0:1)
  stopifnot(part_of(means, "mean", "conf_low") < truth, truth < part_of(means, "mean", "conf_high"), part_of(means, "mean", "conf_low") < part_of(means, "mean"), part_of(means, "mean") < part_of(means, "mean", "conf_high"))
  stopifnot(part_of(means, "difference", "conf_low")[2] < 0.6, 0.6 < part_of(means, "difference", "conf_high")[2], is.na(part_of(means, "difference", "conf_low")[1]))
}
shown <- capture.output(print(means))
same(shown[1], "mean of Y; difference from X=0")
stopifnot(grepl("^95% BCa intervals of 200 resamples, of which 0 had no value; seed 1$", shown[length(shown)]))
same(class(as.data.frame(means)), "data.frame")
whole <- effect_means("dag { X -> Y }", data, character(), "Y", resamples = 10, seed = 1)
near(part_of(whole, "mean"), mean(data$Y), 1e-12)
factors <- transform(data, Y = factor(Y))
near(effect_means("dag { X -> Y }", factors, "X", "Y", resamples = 0)$mean, part_of(means, "mean"))
stopifnot(grepl("R has a level that is no number: success", refusal(effect_means(stones, kidney_stones, count = "count", resamples = 0))))
stopifnot(grepl("a mean is of one outcome", refusal(effect_means("dag { X -> Y X -> Z }", transform(data, Z = Y), "X", c("Y", "Z"), resamples = 0))))

# Intervals corrected for bias and accelerated
corrected <- own("corrected_interval")
near(corrected(0:100, 50, c(0, 1), c(1, 1), 0.9), quantile(0:100, c(0.05, 0.95), names = FALSE))
stopifnot(corrected(0:100, 60, numeric(), numeric(), 0.9) > quantile(0:100, c(0.05, 0.95)))
stopifnot(corrected(0:100, 50, c(0, -5), c(9, 1), 0.9) > quantile(0:100, c(0.05, 0.95)))
stopifnot(is.na(corrected(1:2, 0, numeric(), numeric(), 0.9)), is.na(corrected(1, 1, numeric(), numeric(), 0.9)))
values <- rep(c(0, 10), c(9, 1))
skewness <- mean((values - 1)^3) / mean((values - 1)^2)^1.5
near(own("acceleration")((sum(values) - c(0, 10)) / 9, c(9, 1)), skewness / 6 / sqrt(10))
answer <- contrast(stones, kidney_stones, treated = "A", control = "B", count = "count", resamples = 200, seed = 2, interval = "bca")
stopifnot(part_of(answer, "difference", "conf_low") < part_of(answer, "difference"), part_of(answer, "difference") < part_of(answer, "difference", "conf_high"))
same(attr(answer, "interval"), "bca")

# Plain data frames
for (it in list(answer, evaluate(stones, kidney_stones, count = "count"), implications("dag { A -> B -> C }"))) {
  plain <- as.data.frame(it)
  same(class(plain), "data.frame")
  same(names(attributes(plain)), c("names", "class", "row.names"))
  same(names(plain), names(it))
}
sets <- as.data.frame(adjustment_sets("dag { A B D [outcome] E [exposure] Z A -> E A -> Z B -> D B -> Z E -> D Z -> D Z -> E }"))
same(as.list(sets), list(set = c(1L, 1L, 2L, 2L), name = c("A", "Z", "B", "Z")))
