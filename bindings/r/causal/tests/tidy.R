# Answers as plain data frames, by the generics `tidy` and `glance`.
library(causal)
own <- function(name) getFromNamespace(name, "causal")
same <- function(a, b) stopifnot(identical(a, b))
# The method that the generic would take.
with_method <- function(methods) function(x) methods[[intersect(class(x), names(methods))[1]]](x)
tidy <- with_method(own("tidy_methods"))
glance <- with_method(own("glance_methods"))
stones <- causal_diagram("dag { T [exposure] R [outcome] S -> T S -> R T -> R }")
napkin <- "dag { X [exposure] Y [outcome] W -> Z -> X -> Y W <-> X W <-> Y }"
bow <- "dag { X [exposure] Y [outcome] X -> Y X <-> Y }"

# Contrasts and means: a row for each cell and each measure
answer <- contrast(stones, kidney_stones, treated = "A", control = "B", count = "count", resamples = 50, seed = 2)
tidied <- tidy(answer)
same(class(tidied), "data.frame")
same(names(tidied), c("R", "treated", "control", "term", "estimate", "conf.low", "conf.high", "note"))
same(tidied$R, rep(c("success", "failure"), each = 5))
same(tidied$term, rep(c("risk_treated", "risk_control", "difference", "ratio", "odds_ratio"), 2))
same(as.list(tidied[5:7]), list(estimate = answer$estimate, conf.low = answer$conf_low, conf.high = answer$conf_high))
stopifnot(!anyNA(tidied$conf.low))
glanced <- glance(answer)
same(as.list(glanced), list(treated = "T=A", control = "T=B", conf.level = 0.95, conf.method = "percentile", resamples = 50L,
                            without_value = 0L, seed = 2, pinned = NA_character_, dropped = 0))
same(nrow(tidy(contrast(stones, kidney_stones, count = "count", resamples = 0))), 10L)
same(class(answer[1:4]), "data.frame")
same(nrow(tidy(answer[1, ])), 1L)
factors <- transform(kidney_stones, T = factor(T), R = ifelse(R == "success", 1, 0))
means <- effect_means(stones, factors, count = "count", resamples = 20, seed = 1)
tidied <- tidy(means)
same(as.character(tidied$T), c("A", "A", "B", "B"))
same(levels(tidied$T), c("A", "B"))
same(tidied$estimate, means$estimate)
same(tidied$conf.high, means$conf_high)
same(glance(means)[c("outcome", "control", "resamples")], data.frame(outcome = "R", control = "T=A", resamples = 20L))

# Values: the cells, the estimate, and what bounds its rounding
exact <- evaluate(stones, kidney_stones, count = "count", exact = TRUE)
same(names(tidy(exact)), c("T", "R", "estimate", "fraction"))
same(tidy(exact)$estimate, exact$estimate)
same(names(tidy(evaluate(stones, kidney_stones, count = "count"))), c("T", "R", "estimate", "from", "to"))
same(names(tidy(evaluate("dag { S -> T S -> value T -> value }", stats::setNames(kidney_stones, c("S", "T", "value", "n")), "T", "value", count = "n"))),
     c("T", "value", "estimate", "from", "to"))
same(as.list(glance(exact)), list(cells = 4L, pinned = NA_character_, dropped = 0))
grid <- expand.grid(W = 0:1, Z = c("low", "high"), X = 0:1, Y = 0:1)
grid$n <- seq_len(nrow(grid)) + 3
same(glance(evaluate(napkin, grid, count = "n"))$pinned, "Z=low")
spread <- pin_spread(napkin, grid, count = "n")
same(names(tidy(spread)), c("Z", "X", "Y", "estimate", "from", "to"))
same(glance(spread)$widest, own("widest")(spread))

# Tests and implications
chain <- causal_diagram("dag { A -> B -> C -> D }")
set.seed(1)
records <- as.data.frame(matrix(sample(0:1, 800, TRUE), 200, dimnames = list(NULL, c("A", "B", "C", "D"))))
tests <- test_implications(chain, records, permutations = 99, seed = 1)
tidied <- tidy(tests)
same(names(tidied), c("a", "b", "given", "estimate", "statistic", "parameter", "p.value", "adj.p.value", "method", "largest", "rmsea", "rmsea.low", "rmsea.high", "note"))
same(as.list(tidied[4:8]), list(estimate = tests$effect_size, statistic = tests$statistic, parameter = tests$df, p.value = tests$p_value, adj.p.value = tests$p_holm))
same(as.list(glance(tests)), list(pairs = 3L, tested = 3L, adj.p.value = min(tests$p_holm), permutations = 99, seed = 1, dropped = 0))
same(glance(test_implications("dag { A -> B }", records))$adj.p.value, NA_real_)
same(nrow(tidy(test_implications("dag { A -> B }", records))), 0L)
same(tidy(implications(chain))$given, as.character(implications(chain)$given))
same(glance(implications(chain))$nonzero, NA_integer_)
same(glance(implications(chain, records))$nonzero, sum(implications(chain, records)$difference != 0))

# Answers on diagrams
formula <- identify_effect(napkin)
tidied <- tidy(formula)
same(tidied$term, c(formula$target, paste0("q", seq_along(formula$definitions) - 1, recycle0 = TRUE)))
same(tidied$expression, c(formula$expression, formula$definitions))
same(as.list(glance(formula)), list(target = "P(Y|do(X))", identifiable = TRUE, definitions = length(formula$definitions), free = "{Z}"))
same(tidy(surrogate("dag { X [exposure] Y [outcome] Z -> X -> Y Z <-> X Z <-> Y }", experiments = "Z"))$term[1], "P(Y|do(X))")
hedge <- identify_effect(bow)
same(as.list(tidy(hedge)), list(set = rep(c("big", "small", "roots"), lengths(hedge[c("big", "small", "roots")])),
                                term = c(hedge$big, hedge$small, hedge$roots)))
same(as.list(glance(hedge)), list(target = "P(Y|do(X))", identifiable = FALSE, difference = hedge$difference))
stopped <- surrogate("dag { X [exposure] Y [outcome] X -> Y X <-> Y Z -> X }", experiments = "Z")
same(glance(stopped)$identifiable, FALSE)
same(tidy(stopped)$holds, FALSE)
sets <- adjustment_sets("dag { A B D [outcome] E [exposure] Z A -> E A -> Z B -> D B -> Z E -> D Z -> D Z -> E }")
same(as.list(tidy(sets)), list(set = c(1L, 1L, 2L, 2L), term = c("A", "Z", "B", "Z")))
same(as.list(glance(sets)), list(sets = 2L, complete = TRUE))
found <- instruments("dag { A -> Z A -> B -> Y Z -> X -> Y X <-> Y }", "X", "Y", most = 1)
same(as.list(tidy(found)), list(instrument = c("A", "Z"), strata = c("{B}", "{B}")))
same(as.list(glance(found)), list(instruments = 2L, complete = FALSE))
separation <- separated("dag { A -> B }", "A", "B", character())
same(as.list(tidy(separation)), list(holds = FALSE, path = "A -> B", text = separation$text))
same(as.list(glance(separation)), list(holds = FALSE))
same(tidy(check_certificate(napkin, formula))$holds, TRUE)
same(tidy(adjusts(stones, "S"))$holds, TRUE)
same(glance(equivalent("dag { A -> B }", "dag { B -> A }"))$holds, TRUE)
same(tidy(stones)$from, stones$edges$from)
same(as.list(glance(stones)), list(vertices = 3L, directed = 3L, bidirected = 0L))

# Where the package generics is there, its generics find them, though it is loaded only now
if (nzchar(system.file(package = "generics"))) {
  for (it in list(answer, means, exact, spread, tests, implications(chain), formula, hedge, stopped, sets, found, separation, stones)) {
    same(getExportedValue("generics", "tidy")(it), tidy(it))
    same(getExportedValue("generics", "glance")(it), glance(it))
  }
} else cat("skipped: generics: the package isn't there\n")

# Estimates, bounds, support and comparisons
plain <- transform(kidney_stones, R = as.integer(R == "success"))
estimated <- estimate(stones, plain, treated = "A", control = "B", count = "count", resamples = 0, method = "aipw")
same(names(tidy(estimated)), c("R", "treated", "control", "term", "estimate", "std.error", "conf.low", "conf.high", "note"))
same(glance(estimated)[c("outcome", "method", "set", "conf.method", "nobs")],
     data.frame(outcome = "R", method = "aipw", set = "{S}", conf.method = "influence", nobs = 700))
bounds <- bounds_effect(stones, plain, count = "count", treated = "A", control = "B", outcome = 1)
same(tidy(bounds)$measure, c("risk_treated", "risk_control", "difference"))
same(glance(bounds)$cells, 3L)
same(glance(support(stones, plain, count = "count"))[1:4], data.frame(strata = 2L, lacking = 0L, records = 700, without = 0))
compared <- compare(stones, plain, treated = "A", control = "B", outcome = 1, count = "count", resamples = 20)
same(tidy(compared)$term, rep("difference", 3))
same(as.list(glance(compared)), list(ways = 3L, agree = TRUE, complete = TRUE))
