# Effects by a set to adjust for, under a condition, by a short formula, and where cells have no record; progress of long runs.
library(causal)
part_of <- function(answer, measure, column = "estimate") as.data.frame(answer)[[column]][answer$measure == measure]
own <- function(name) getFromNamespace(name, "causal")
same <- function(a, b) stopifnot(identical(a, b))
near <- function(a, b, by = 1e-10) stopifnot(length(a) == length(b), all(abs(a - b) < by))
refusal <- function(call) conditionMessage(tryCatch(call, error = identity))
stones <- causal_diagram("dag { T [exposure] R [outcome] S -> T S -> R T -> R }")
part <- function(data, of, given) {
  has <- function(levels) Reduce(`&`, lapply(names(levels), function(name) data[[name]] == levels[[name]]), rep(TRUE, nrow(data)))
  sum(data$n[has(given) & has(of)]) / sum(data$n[has(given)])
}
table_of <- function(names, seed) {
  data <- expand.grid(stats::setNames(rep(list(0:1), length(names)), names))
  set.seed(seed)
  cbind(data, n = sample(3:40, nrow(data), TRUE))
}

# By a set: the same as by the formula, and by hand
by_set <- evaluate(stones, kidney_stones, count = "count", exact = TRUE, set = "S")
same(by_set, evaluate(stones, kidney_stones, count = "count", exact = TRUE))
data <- table_of(c("W", "Z", "X", "Y"), 1)
found <- evaluate("dag { W -> Z -> X -> Y W -> Y }", data, "X", "Y", count = "n", set = c("Z", "W"))
for (row in seq_len(nrow(found))) {
  cells <- expand.grid(Z = 0:1, W = 0:1)
  near(found$estimate[row], sum(vapply(seq_len(4), function(k) {
    cell <- as.list(cells[k, ])
    part(data, cell, list()) * part(data, list(Y = found$Y[row]), c(list(X = found$X[row]), cell))
  }, 0)))
}
stopifnot(grepl("can't be adjusted for: not admissible: \\{\\}", refusal(evaluate(stones, kidney_stones, count = "count", set = character()))))
stopifnot(grepl("not both", refusal(evaluate(stones, kidney_stones, count = "count", set = "S", given = "S"))))
drawn <- lapply(list("S", NULL), function(set) contrast(stones, kidney_stones, count = "count", resamples = 10, seed = 1, set = set))
same(drawn[[1]], drawn[[2]])
same(evaluate(stones, kidney_stones, count = "count", exact = TRUE, set = "S", back_door = TRUE), by_set)
below <- table_of(c("X", "Y", "D"), 2)
same(nrow(evaluate("dag { X -> Y X -> D }", below, "X", "Y", count = "n", set = "D")), 4L)
stopifnot(grepl("forbidden: D", refusal(evaluate("dag { X -> Y X -> D }", below, "X", "Y", count = "n", set = "D", back_door = TRUE))))
stopifnot(grepl("`set` names it", refusal(evaluate(stones, kidney_stones, count = "count", back_door = TRUE))))
# no column outside of the set is read
same(nrow(evaluate("dag { X -> Y X <- A -> Y A <- B -> X }", table_of(c("X", "Y", "A"), 4), "X", "Y", count = "n", set = "A")), 4L)

# Under a condition that may as well be done
found <- evaluate(stones, kidney_stones, count = "count", exact = TRUE, given = "S")
same(names(found), c("T", "S", "R", "estimate", "fraction"))
plain <- transform(kidney_stones, n = count)
for (row in seq_len(nrow(found)))
  near(found$estimate[row], part(plain, list(R = found$R[row]), list(T = found$T[row], S = found$S[row])))
near(found$estimate[found$T == "A" & found$S == "small" & found$R == "success"], 27 / 29)

# A quotient of a joint effect
diagram <- causal_diagram("dag { X -> W -> Y X -> Y W <-> Y }")
data <- table_of(c("X", "W", "Y"), 3)
found <- evaluate(diagram, data, "X", "Y", count = "n", given = "W")
for (row in seq_len(nrow(found))) {
  value <- part(data, list(Y = found$Y[row]), list(X = found$X[row], W = found$W[row]))
  near(found$estimate[row], value)
  stopifnot(as.numeric(found$to[row]) - as.numeric(found$from[row]) < 1e-15)
}
found <- evaluate(diagram, data, "X", "Y", count = "n", given = "W", exact = TRUE)
same(names(found), c("X", "W", "Y", "estimate", "fraction"))
near(found$estimate, vapply(seq_len(8), function(row) part(data, list(Y = found$Y[row]), list(X = found$X[row], W = found$W[row])), 0), 1e-15)
data <- table_of(c("X", "M", "Y", "Z"), 5)
front_door <- causal_diagram("dag { X -> M -> Y X <-> Y Z -> Y Z <-> M }")
found <- evaluate(front_door, data, "X", "Y", count = "n", given = "Z", short = FALSE)
joint <- evaluate(front_door, data, "X", c("Y", "Z"), count = "n", short = FALSE)
for (row in seq_len(nrow(found))) {
  both <- joint[joint$X == found$X[row] & joint$Z == found$Z[row], ]
  near(found$estimate[row], both$estimate[both$Y == found$Y[row]] / sum(both$estimate))
}
caught <- tryCatch(evaluate("dag { X -> Y X <-> Y Z -> Y }", data, "X", "Y", given = "Z"), causal_not_identifiable = identity)
stopifnot(startsWith(conditionMessage(caught), "P(Y|do(X),Z) is not identifiable"), inherits(caught$hedge, "causal_hedge"))
same(caught$hedge$settled, TRUE)

# Contrasts and means under a condition, with intervals, and their progress
told <- NULL
answer <- contrast(stones, kidney_stones, treated = "A", control = "B", count = "count", resamples = 30, seed = 2, given = "S", interval = "bca",
                   progress = function(done, of) told <<- rbind(told, c(done, of)))
same(told, rbind(c(30, 38), c(38, 38)))
shown <- answer[answer$measure == "difference", ]
near(shown$estimate[shown$S == "large" & shown$R == "success"], 192 / 263 - 55 / 80)
stopifnot(all(part_of(answer, "difference", "conf_low") < part_of(answer, "difference", "conf_high")))
same(nrow(answer), 20L)
print(answer)
numbers <- transform(kidney_stones, R = as.integer(R == "success"))
means <- effect_means(stones, numbers, count = "count", control = "B", resamples = 20, seed = 1, given = "S")
shown <- means[means$T == "A" & means$S == "large", ]
near(shown$estimate, c(192 / 263, 192 / 263 - 55 / 80))
same(is.na(part_of(means, "difference", "conf_low")), part_of(means, "difference", "T") == "B")
print(means)
quotient <- contrast(diagram, table_of(c("X", "W", "Y"), 3), "X", "Y", count = "n", resamples = 10, seed = 1, given = "W")
stopifnot(all(is.finite(part_of(quotient, "difference", "conf_low"))))
stopifnot(grepl("GROUP BY", counts_query(stones, "t", given = "S")))

# Nothing is done; a condition that the formula doesn't read; a pinned variable beside a condition
near(evaluate(stones, kidney_stones, x = character(), count = "count", given = "S")$estimate[1], 15 / 17)
found <- evaluate("dag { X -> Y Z }", table_of(c("X", "Y", "Z"), 6), "X", "Y", count = "n", given = "Z")
same(list(nrow(found), names(found)[1:3]), list(8L, c("X", "Z", "Y")))
napkin <- causal_diagram("dag { V W -> Z -> X -> Y W <-> X W <-> Y }")
data <- table_of(c("W", "Z", "X", "Y", "V"), 8)
spread <- pin_spread(napkin, data, "X", "Y", count = "n", given = "V")
same(names(spread)[1:4], c("Z", "X", "V", "Y"))
same(evaluate(napkin, data, "X", "Y", count = "n", given = "V", at = list(Z = 1))$estimate, spread$estimate[spread$Z == 1])

# A product with a factor 0: with A = 1 there is no record with B = 1
diagram <- causal_diagram("dag { A -> B A -> X A -> Y B -> Y X -> Y }")
data <- expand.grid(Y = 0:1, X = 0:1, B = 0:1, A = 0:1)
data$n <- c(2, 1, 1, 1, 1, 1, 2, 1, 3, 1, 1, 5, 0, 0, 0, 0)
same(evaluate(diagram, data, "X", "Y", count = "n", exact = TRUE, short = FALSE)$fraction, c("2/3", "1/3", "3/8", "5/8"))
near(part_of(contrast(diagram, data, "X", "Y", count = "n", short = FALSE, resamples = 0), "difference")[2], 5 / 8 - 1 / 3)
near(part_of(effect_means(diagram, data, "X", "Y", count = "n", short = FALSE, resamples = 0), "mean"), c(1 / 3, 5 / 8))
same(evaluate(stones, kidney_stones, count = "count", zero = TRUE), evaluate(stones, kidney_stones, count = "count"))
thin <- transform(data, n = c(rep(20, 12), 1, 1, 1, 1))
drawn <- lapply(c(FALSE, TRUE), function(zero) suppressWarnings(contrast(diagram, thin, "X", "Y", count = "n", resamples = 40, seed = 1, zero = zero, short = FALSE)))
stopifnot(attr(drawn[[2]], "without_value") < attr(drawn[[1]], "without_value"))
napkin <- causal_diagram("dag { W -> Z -> X -> Y W <-> X W <-> Y }")
cells <- table_of(c("W", "Z", "X", "Y"), 10)
cells$n[cells$W == 1 & cells$Z == 1 & cells$X == 0] <- 0
without <- lapply(c(FALSE, TRUE), function(zero) attr(pin_spread(napkin, cells, "X", "Y", count = "n", zero = zero, short = FALSE), "without_value"))
same(without, list(list(list(Z = "1")), list()))

# The condition that no record has is named
caught <- tryCatch(evaluate(diagram, data, "X", "Y", count = "n", zero = FALSE, short = FALSE), causal_evaluation_fault = identity)
same(conditionMessage(caught), paste("no record has A=1, B=1, X=0, which P(Y|A,B,X) is given, so the effect has no value over these data. What may help:",
                                     "zero = TRUE, short = TRUE, set = \"A\" (it has a value), fewer classes; support() shows where records lack,",
                                     "estimate() fills in by models, and bounds_effect() says what the effect is at least and at most"))
same(caught$condition, c(A = "1", B = "1", X = "0"))
same(names(caught$cell), c("A", "B", "X", "Y"))
caught <- tryCatch(evaluate(napkin, cells, "X", "Y", count = "n", at = list(Z = 1), zero = FALSE, short = FALSE), causal_evaluation_fault = identity)
same(caught[c("expression", "condition")], list(expression = "q0", condition = c(W = "1", Z = "1", X = "0")))
caught <- tryCatch(evaluate("dag { A -> X -> Y B -> A B -> Y }", transform(data, A = 1 - A, n = pmax(n, 0)), "X", "Y", count = "n", set = c("B", "A"), zero = FALSE),
                   causal_evaluation_fault = identity)
stopifnot(startsWith(conditionMessage(caught), "no record has A=0, X=0, B=1, which P(Y|A,X,B) is given"))
same(caught$condition, c(A = "0", X = "0", B = "1"))
few <- data.frame(X = c(0, 0, 1), Y = c(0, 1, 0), Z = c(0, 1, 0))
caught <- tryCatch(evaluate("dag { X -> Y -> Z }", few, "X", "Y", given = "Z", short = FALSE), causal_evaluation_fault = identity)
stopifnot(startsWith(conditionMessage(caught), "a divisor is 0 at X=1, Z=1, so the effect has no value over these data"))
trees <- lapply(c('{"sum":["W"],"of":{"product":[{"term":["W"],"do":[],"given":[]},{"term":["X ("],"do":[],"given":["W","Z"]}]}}',
                  paste0('{"quotient":[{"product":[{"term":["q0"],"do":[],"given":[]},{"definition":0}]},',
                         '{"sum":["X ("],"of":{"definition":0}}]}')), own("read_json"))
nodes <- own("divisors_of")(trees)
same(lengths(nodes), c(4L, 6L))
same(nodes[[1]][[4]], list(term = "P(\"X (\"|W,Z)", names = c("W", "Z")))
same(nodes[[2]][[1]], list(names = "Z"))
same(vapply(nodes[[2]], is.null, NA), c(FALSE, TRUE, FALSE, TRUE, TRUE, TRUE))

# By a short formula: that of `identify_effect`
hormones <- causal_diagram("dag { HRT [exposure] CHD [outcome] SES -> HRT SES -> Smoking SES -> CHD Age -> HRT Age -> Smoking Age -> CHD
  Smoking -> CHD HRT -> CHD }")
same(own("asked_of")(hormones, NULL, NULL, short = TRUE)$formula$expression, identify_effect(hormones, short = TRUE)$expression)
data <- table_of(c("SES", "Age", "HRT", "CHD"), 21)
found <- evaluate(hormones, data, count = "n", exact = TRUE, short = TRUE)
same(found, evaluate(hormones, data, count = "n", exact = TRUE, set = c("SES", "Age")))
same(evaluate(hormones, data, count = "n", short = TRUE, zero = TRUE), evaluate(hormones, data, count = "n", short = TRUE))
drawn <- lapply(list(TRUE, FALSE), function(short) {
  set <- if (!short) c("SES", "Age")
  list(contrast(hormones, data, count = "n", resamples = 20, seed = 1, set = set),
       effect_means(hormones, data, count = "n", resamples = 20, seed = 1, set = set))
})
same(drawn[[1]], drawn[[2]])
# a cell that only the long formula asks for
data <- table_of(c("SES", "Age", "Smoking", "HRT", "CHD"), 23)
data$n[data$SES == 0 & data$Smoking == 1 & data$HRT == 1] <- 0
stopifnot(inherits(tryCatch(evaluate(hormones, data, count = "n", short = FALSE, zero = FALSE), error = identity), "causal_evaluation_fault"))
same(evaluate(hormones, data, count = "n", short = TRUE), evaluate(hormones, data, count = "n", set = c("SES", "Age")))
# no column of the mediator is read, under a condition the formula needs no quotient, and a pinned variable stays one
through <- causal_diagram("dag { S -> B -> M S -> M B <-> M }")
data <- table_of(c("S", "M"), 22)
found <- evaluate(through, data, "S", "M", count = "n", exact = TRUE, short = TRUE)
near(found$estimate, vapply(1:4, function(row) part(data, list(M = found$M[row]), list(S = found$S[row])), 0), 1e-15)
stopifnot(inherits(tryCatch(evaluate(through, data, "S", "M", count = "n", short = FALSE), error = identity), "causal_counts_fault"))
chain <- causal_diagram("dag { X -> Y -> Z }")
same(own("asked_of")(chain, "X", "Y", given = "Z", short = TRUE)$formula$expression, "P(Y|X,Z)")
data <- table_of(c("X", "Y", "Z"), 25)
found <- evaluate(chain, data, "X", "Y", count = "n", given = "Z", short = TRUE)
near(found$estimate, vapply(seq_len(8), function(row) part(data, list(Y = found$Y[row]), list(X = found$X[row], Z = found$Z[row])), 0))
data <- table_of(c("W", "Z", "X", "Y"), 28)
spread <- lapply(c(FALSE, TRUE), function(short) pin_spread(napkin, data, "X", "Y", count = "n", exact = TRUE, short = short))
same(spread[[1]], spread[[2]])
stopifnot(grepl("by a short formula, and not both", refusal(evaluate(stones, kidney_stones, count = "count", set = "S", short = TRUE))))
caught <- tryCatch(evaluate("dag { X -> Y X <-> Y }", few, "X", "Y", short = TRUE), causal_not_identifiable = identity)
same(caught$hedge$text, identify_effect("dag { X -> Y X <-> Y }", "X", "Y")$text)
