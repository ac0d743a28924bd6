# Effects among the treated that have no formula, over data in which the exposure has two levels: their values, and contrasts with intervals.
library(causal)
same <- function(a, b) stopifnot(identical(a, b))
near <- function(a, b, by = 1e-12) stopifnot(length(a) == length(b), all(abs(a - b) < by))
refusal <- function(call) tryCatch(call, causal_refusal = identity)
napkin <- causal_diagram("dag { W -> Z -> X -> Y W <-> X W <-> Y X [exposure] Y [outcome] }")
# Counts of a model: over everybody X changes nothing, and among those who had it Y is rarer by 1/24.
counts <- cbind(expand.grid(Y = 0:1, X = 0:1, Z = 0:1, W = 0:1)[4:1], n = c(54, 42, 54, 42, 11, 13, 19, 21, 14, 18, 14, 18, 39, 33, 63, 57))
at <- function(found, measure) found$estimate[found$measure == measure]

# The reader of what is less, of an object by hand
read <- causal:::read_less(list(less = list(y = list(list("Y", "1")), x = list(list("X", "0")), given = list(), observed = list(list("X'", "1")))))
same(read[c("y", "x", "observed")], list(y = c(Y = "1"), x = c(X = "0"), observed = c("X'" = "1")))

# By hand: the joint effect at Z = 0 less the share with X and Y, over the share of those who had the other level
found <- evaluate(napkin, counts, count = "n", treated = TRUE, exact = TRUE)
same(names(found), c("X", "X'", "Y", "estimate", "fraction"))
same(found$fraction, c("59/112", "53/112", "23/48", "25/48", "53/112", "59/112", "25/48", "23/48"))
same(attr(found, "pinned"), list(Z = 0L))
same(attr(found, "split"), "two values of X: P(Y|do(X)) = P(X,Y) + P(X') * P(Y|do(X),X')")
same(capture.output(print(found))[2], attr(found, "split"))
by_hand <- function(data, x, had, y, z = 0) {
  of <- function(rows) sum(data$n[rows])
  part <- function(rows) sum(vapply(0:1, function(w) with(data, of(W == w) / of(TRUE) * of(W == w & Z == z & rows) / of(W == w & Z == z)), 0))
  share <- with(data, of(X == x & Y == y))
  if (x == had) return(share / with(data, of(X == x)))
  with(data, (part(X == x & Y == y) / part(X == x) - share / of(TRUE)) / (of(X == had) / of(TRUE)))
}
cells <- function(data, z = 0) mapply(by_hand, found$X, found[["X'"]], found$Y, MoreArgs = list(data = data, z = z))
near(found$estimate, cells(counts))
set.seed(4)
values <- refused <- 0
for (k in 1:30) {
  data <- transform(counts, n = sample(c(1, 2, 5, 30), 16, TRUE))
  wanted <- cells(data)
  other <- refusal(evaluate(napkin, data, count = "n", treated = TRUE))
  if (inherits(other, "causal_no_model")) {
    refused <- refused + 1
    first <- which(wanted < 0)[1]
    same(as.integer(unlist(other$less[c("X", "X'", "Y")])), as.integer(unlist(found[first, c("X", "X'", "Y")])))
  } else {
    values <- values + 1
    near(other$estimate, wanted)
  }
}
stopifnot(values > 0, refused > 0)
near(evaluate(napkin, data <- transform(counts, n = n + seq_along(n) %% 3), count = "n", treated = TRUE, at = list(Z = 1))$estimate, cells(data, 1))
one <- evaluate(napkin, transform(counts, X = 0), count = "n", treated = TRUE, exact = TRUE)
same(nrow(one), 2L)
near(sum(one$Y * one$estimate), sum(counts$n[counts$Y == 1]) / 512)

# The effect of treatment on the treated, with intervals: by the tree of the joint formula, and by the library
arms <- function(data, ...) contrast(napkin, data, treated = 1, control = 0, outcome = 1, ...)
found <- arms(counts, count = "n", observed = 1, resamples = 300, seed = 1)
near(at(found, "difference"), -1 / 24)
stopifnot(found$conf_low < found$estimate, found$conf_high > found$estimate, attr(found, "without_value") == 0, grepl("two values of X", attr(found, "split")))
near(at(arms(counts, count = "n", observed = 0, resamples = 0), "difference"), 59 / 112 - 53 / 112)
records <- counts[rep(seq_len(16), counts$n), 1:4]
records$w <- 0.5
weighted <- arms(records, observed = 1, weights = "w", resamples = 50)
near(at(weighted, "difference"), -1 / 24, 1e-9)
thin <- transform(counts, n = c(5, 4, 5, 4, 1, 1, 2, 2, 1, 2, 1, 2, 4, 3, 6, 6))
asked <- causal:::asked_of(napkin, NULL, NULL, treated = TRUE)
table <- causal:::table_for(asked, thin, "n", "error")
effects <- causal:::effects_of(asked, table)
set.seed(9)
drawn <- cbind(table$counts, stats::rmultinom(60, sum(table$counts), table$counts))
ways <- lapply(list(causal:::values_by_tree, causal:::values_by_library), function(way) way(asked, table, effects)(drawn))
same(is.na(ways[[1]]), is.na(ways[[2]]))
near(ways[[1]][!is.na(ways[[1]])], ways[[2]][!is.na(ways[[2]])], 1e-9)
lost <- sum(is.na(ways[[1]][, 1]))
stopifnot(lost > 0, lost < 60)
doubted <- tryCatch(arms(thin, count = "n", observed = 1, resamples = 100), causal_doubt = identity)
stopifnot(grepl("or no model has the counts there", conditionMessage(doubted)))

# Refusals
below <- data.frame(W = 0, Z = c(0, 0, 1, 1), X = c("no", "yes", "no", "yes"), Y = c(0, 1, 1, 0))
caught <- refusal(evaluate(napkin, below, treated = TRUE))
stopifnot(inherits(caught, "causal_no_model"))
same(conditionMessage(caught), "no model of this diagram has these counts: P(Y=1|do(X=no)) is less than P(X=no,Y=1)")
same(caught$less, list(X = "no", Y = 1, "X'" = "yes"))
same(capture.output(print(caught)), paste0("<causal_no_model: ", conditionMessage(caught), ">"))
three <- refusal(evaluate(napkin, transform(counts, X = seq_len(16) %% 3), count = "n", treated = TRUE))
stopifnot(inherits(three, "causal_not_identifiable"), grepl("X has more than two levels in the data", conditionMessage(three)))
modelled <- refusal(estimate(napkin, counts, treated = 1, control = 0, outcome = 1, observed = 1, count = "n"))
stopifnot(grepl("evaluate() and contrast() have values where X has two levels", conditionMessage(modelled), fixed = TRUE))
