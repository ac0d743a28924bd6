# Bounds of effects, and effects among the treated.
library(causal)
same <- function(a, b) stopifnot(identical(a, b))

trial <- data.frame(assigned = c("no", "no", "yes", "yes", "yes", "yes"), taken = c("no", "no", "no", "no", "yes", "yes"),
                    improved = c("no", "yes", "no", "yes", "no", "yes"), n = c(158, 14, 52, 12, 23, 78))
diagram <- causal_diagram("dag { taken [exposure] improved [outcome] assigned -> taken -> improved taken <-> improved }")

# the published bounds of the cholestyramine trial
by_arm <- bounds_effect(diagram, trial, instrument = "assigned", count = "n", exact = TRUE)
same(names(by_arm), c("taken", "improved", "at_least", "at_most", "at_least_exact", "at_most_exact"))
at <- function(bounds, taken, improved) bounds[bounds$taken == taken & bounds$improved == improved, ]
same(c(at(by_arm, "yes", "yes")$at_least_exact, at(by_arm, "yes", "yes")$at_most_exact), c("26/55", "142/165"))
same(at(by_arm, "no", "yes")$at_least_exact, "7/86")
stopifnot(abs(at(by_arm, "yes", "yes")$at_least - 78 / 165) < 1e-15)

# the natural bounds, and digits
natural <- bounds_effect(diagram, trial, count = "n")
same(names(natural), c("taken", "improved", "at_least", "at_most"))
stopifnot(abs(at(natural, "yes", "yes")$at_least - 78 / 337) < 1e-12, abs(at(natural, "yes", "yes")$at_most - 314 / 337) < 1e-12)
same(is.null(capture.output(print(natural))), FALSE)

# percentiles of both ends over resamples
cells <- expand.grid(Y = 0:1, X = 0:1, Z = 0:1)
crossing_over <- transform(cells, n = c(52, 12, 10, 26, 24, 6, 12, 58))
model <- causal_diagram("dag { Z -> X -> Y X <-> Y }")
asked <- function(data = crossing_over, ...) bounds_effect(model, data, "X", "Y", instrument = "Z", count = "n", ...)
plain <- asked()
drawn <- asked(resamples = 200)
same(names(plain), c("X", "Y", "at_least", "at_most"))
same(sort(names(attributes(plain))), c("class", "dropped", "names", "row.names"))
same(names(drawn), c("X", "Y", "at_least", "at_most", "conf_low", "conf_high"))
same(as.list(drawn)[1:4], as.list(plain)[1:4])
stopifnot(drawn$conf_low < drawn$at_least, drawn$conf_high > drawn$at_most)
same(attributes(drawn)[c("level", "interval", "resamples", "without_value", "seed")],
     list(level = 0.95, interval = "percentile", resamples = 200, without_value = 0L, seed = 0))
same(asked(resamples = 200), drawn)
stopifnot(!identical(asked(resamples = 200, seed = 1)$conf_low, drawn$conf_low), asked(resamples = 200, level = 0.8)$conf_low > drawn$conf_low)
set.seed(3)
before <- .Random.seed
again <- asked(resamples = 20)
same(.Random.seed, before)
same(names(asked(resamples = 20, exact = TRUE)), c("X", "Y", "at_least", "at_most", "conf_low", "conf_high", "at_least_exact", "at_most_exact"))
same(as.list(asked(resamples = 20, exact = TRUE))[3:6], as.list(again)[3:6])
same(asked(resamples = 200, outcome = 1)$conf_high, drawn$conf_high[drawn$Y == 1])
difference <- function(...) subset(asked(..., treated = 1, control = 0, outcome = 1), measure == "difference")
arms <- asked(resamples = 200, treated = 1, control = 0, outcome = 1)
same(arms$conf_low[1:2], c(drawn$conf_low[drawn$X == 1 & drawn$Y == 1], drawn$conf_low[drawn$X == 0 & drawn$Y == 1]))
stopifnot(arms$conf_low < arms$at_least, arms$conf_high > arms$at_most)
# (no wider than what the intervals of both arms leave)
stopifnot(arms$conf_low[3] > arms$conf_low[1] - arms$conf_high[2], arms$conf_high[3] < arms$conf_high[1] - arms$conf_low[2])
same(tail(capture.output(print(drawn)), 2),
     c("95% percentile intervals of 200 resamples, of which 0 had no value; seed 0",
       "each interval is for the whole range from the lower to the upper bound: computed, and not proved"))
same(any(grepl("percentile", capture.output(print(plain)))), FALSE)
done <- list()
same(asked(resamples = 3, progress = function(now, of) done[[length(done) + 1]] <<- c(now, of))$at_most, plain$at_most)
same(done, list(c(3, 3)))

# the true range is covered
true <- difference()
set.seed(5)
covered <- vapply(1:20, function(seed) {
  study <- transform(crossing_over, n = stats::rmultinom(1, 1000, n)[, 1])
  found <- difference(study, resamples = 100, seed = seed)
  found$conf_low <= true$at_least && true$at_most <= found$conf_high
}, NA)
stopifnot(sum(covered) >= 17)

# resamples without bounds: those that cross, and those that lack a condition
caught <- NULL
lost <- withCallingHandlers(bounds_effect(diagram, trial, instrument = "assigned", count = "n", resamples = 200),
                            causal_doubt = function(it) { caught <<- conditionMessage(it); invokeRestart("muffleWarning") })
stopifnot(attr(lost, "without_value") > 40, attr(lost, "without_value") < 110)
same(caught, paste(attr(lost, "without_value"), "of 200 resamples had no value, so that the intervals are too narrow: bounds cross there, or records are few at some levels"))
thin <- data.frame(G = rep(c("a", "b"), c(40, 2)), X = c(rep(c(0, 0, 1, 1), 10), 0, 1), Y = rep(0:1, 21))
thin <- suppressWarnings(bounds_effect("dag { G -> X -> Y X <-> Y }", thin, "X", "Y", given = "G", resamples = 100))
stopifnot(attr(thin, "without_value") > 5, !anyNA(thin$conf_low))
# (a level of the exposure that isn't drawn stays)
few <- bounds_effect("dag { X -> Y X <-> Y }", data.frame(X = rep(0:1, c(20, 1)), Y = c(rep(0:1, 10), 0)), "X", "Y", resamples = 100)
same(list(attr(few, "without_value"), few$conf_high[4]), list(0L, 1))
stopifnot(is.na(asked(resamples = 1)$conf_low), is.numeric(attr(asked(resamples = 2, seed = NULL), "seed")))
for (words in list(list(resamples = -1), list(resamples = 1.5), list(level = 95), list(resamples = 2, seed = "a"), list(resamples = 2, progress = 3)))
  stopifnot(inherits(tryCatch(do.call(asked, words), error = identity), "causal_refusal"))

# no instrument, and no model
direct <- causal_diagram("dag { taken [exposure] improved [outcome] assigned -> taken -> improved assigned -> improved taken <-> improved }")
refused <- bounds_effect(direct, trial, instrument = "assigned", count = "n")
stopifnot(inherits(refused, "causal_no_instrument"), !as.logical(refused), is.null(refused$moved))
same(refused$path$vertices, c("improved", "assigned"))
broken <- data.frame(assigned = c("no", "yes"), taken = c("yes", "yes"), improved = c("no", "yes"), n = c(9, 9))
crossed <- bounds_effect(diagram, broken, instrument = "assigned", count = "n")
stopifnot(inherits(crossed, "causal_no_model"), nrow(crossed$crossed) == 1, crossed$crossed$at_least > crossed$crossed$at_most)
stopifnot(inherits(bounds_effect(diagram, broken, instrument = "assigned", count = "n", resamples = 10), "causal_no_model"))

# refusals
stopifnot(inherits(tryCatch(bounds_effect(diagram, trial, strata = "assigned", count = "n"), error = identity), "causal_refusal"))
stopifnot(inherits(tryCatch(bounds_effect(diagram, trial, instrument = "taken", count = "n"), error = identity), "causal_fault"))

# the treated
formula <- treated_effect("dag { S -> T -> R <- S }", "T", "R")
stopifnot(inherits(formula, "causal_formula"), formula$identifiable)
same(formula$target, "P(R|do(T),T')")
bow <- treated_effect("dag { X -> Y X <-> Y }", "X", "Y")
stopifnot(inherits(bow, "causal_confounded"), !bow$identifiable, !is.null(bow$hedge))
same(c(bow$treatment, bow$child), c("X", "Y"))
same(bow$path$vertices, c("Y", "X"))
napkin <- treated_effect("dag { W -> Z -> X -> Y W <-> X W <-> Y }", "X", "Y")
stopifnot(is.null(napkin$hedge))
same(napkin$joint, "P(Y|do(X))")
same(napkin$two_values, "P(Y|do(X)) = P(X,Y) + P(X') * P(Y|do(X),X')")
