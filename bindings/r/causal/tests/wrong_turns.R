# What went wrong in silence: roles, arms, levels, tests and intervals that aren't what was meant are refused or told.
library(causal)
same <- function(a, b) stopifnot(identical(a, b))
near <- function(a, b, by = 1e-10) stopifnot(length(a) == length(b), all(abs(a - b) < by))
told <- function(call, class) tryCatch({ call; NULL }, error = identity, warning = function(it) if (inherits(it, class)) it else stop(it))
refused <- function(call, kind, words) {
  caught <- tryCatch({ call; NULL }, error = identity)
  stopifnot(inherits(caught, "causal_refusal"), inherits(caught, paste0("causal_", kind)), grepl(words, conditionMessage(caught), fixed = TRUE))
}
doubted <- function(call) {
  found <- character()
  withCallingHandlers(call, causal_doubt = function(it) {
    found <<- c(found, conditionMessage(it))
    invokeRestart("muffleWarning")
  })
  found
}
part_of <- function(answer, measure, column = "estimate") as.data.frame(answer)[[column]][answer$measure == measure]

# Levels by position follow `x` as it is written, whatever the diagram's order; without it they have to be named
two <- causal_diagram("dag { B [exposure] A [exposure] Y [outcome] A -> Y B -> Y }")
data <- expand.grid(Y = 0:1, A = 0:1, B = 0:1)
data$n <- c(90, 10, 70, 30, 50, 50, 20, 80)
arm <- function(...) part_of(contrast(two, data, count = "n", resamples = 0, outcome = 1, ...), "risk_treated")
near(arm(x = c("A", "B"), y = "Y", treated = c(1, 0), control = c(0, 0)), 0.3)
near(arm(x = c("B", "A"), y = "Y", treated = c(1, 0), control = c(0, 0)), 0.5)
near(arm(treated = c(A = 1, B = 0), control = list(B = 0, A = 0)), 0.3)
refused(contrast(two, data, count = "n", treated = c(1, 0), control = c(0, 0)), "argument", "have to be named")
refused(effect_means(two, data, count = "n", control = c(1, 0), resamples = 0), "argument", "have to be named")
refused(contrast(two, data, count = "n", treated = c(A = 1, b = 0), control = c(A = 0, B = 0)), "argument", "did you mean B?")

# A role is one of a vertex that is there
edges <- data.frame(from = c("age", "age", "statin"), to = c("statin", "mi", "mi"))
for (role in c("exposure", "outcome", "adjusted", "latent")) {
  given <- list(edges, "Statin")
  names(given) <- c("x", role)
  refused(do.call(as_causal_diagram, given), "unknown_vertex", "did you mean statin?")
}
same(suppressWarnings(as_causal_diagram(edges, vertices = "sex", latent = "sex"))$vertices$role[1], "latent")
matrix <- matrix(c(0, 0, 1, 0), 2, dimnames = list(c("A", "B"), c("A", "B")))
refused(as_causal_diagram(matrix, outcome = "b"), "unknown_vertex", "did you mean B?")
refused(causal_diagram("digraph { A -> B }", format = "dot", exposure = "a"), "unknown_vertex", "did you mean A?")
stopifnot(grepl("the exposure Statin has no edge", doubted(causal_diagram("dag { Statin [exposure] mi [outcome] statin -> mi }"))))

# A hidden or adjusted vertex without an edge is doubted too: the one that was meant would be taken as observed
stopifnot(grepl("the latent vertex U has no edge", doubted(causal_diagram("dag { U [latent] X [exposure] Y [outcome] u -> X u -> Y X -> Y }"))))
stopifnot(grepl("the adjusted vertex Age has no edge", doubted(causal_diagram("dag { Age [adjusted] age -> X -> Y }"))))

# No exposure is refused unless it is said
for (call in list(identify_effect, function(d) evaluate(d, data, count = "n"), function(d) contrast(d, data, count = "n"),
                  function(d) counts_query(d, "t"), function(d) surrogate(d, experiments = "A")))
  refused(call("dag { Y [outcome] A -> Y }"), "no_exposure", "x = character()")
same(identify_effect("dag { Y [outcome] A -> Y }", x = character())$expression, "P(Y)")

# A column with nearly a level for each record gets no test, and the reason
set.seed(2)
age <- rnorm(400)
X <- rbinom(400, 1, plogis(age))
Y <- rbinom(400, 1, plogis(3 * age))
chain <- causal_diagram("dag { age -> X -> Y }")
found <- doubted(tests <- test_implications(chain, data.frame(age, X, Y), permutations = 99))
stopifnot(is.na(tests$p_value), is.na(tests$p_holm), grepl("no test: age has 400 levels in 400 records, so cut it", tests$note), grepl("cut it", found))
stopifnot(any(grepl("note: no test: age has 400 levels", capture.output(print(tests)))))
cut_tests <- test_implications(chain, data.frame(age = cut(age, 5), X, Y))
stopifnot(cut_tests$p_value < 1e-3, cut_tests$note == "")
many <- data.frame(age = rep(1:38, length.out = 200), X = X[1:200], Y = Y[1:200])
stopifnot(grepl("^thin: [0-9]+ degrees of freedom in 200 records", test_implications(chain, many, permutations = 9)$note))

# Numbers that print alike are two arms
arms <- data.frame(X = rep(c(0.1 + 0.2, 0.3), each = 10), Y = c(rep(1, 8), rep(0, 2), rep(1, 3), rep(0, 7)))
answer <- contrast("dag { X -> Y }", arms, "X", "Y", resamples = 0, outcome = 1)
near(abs(part_of(answer, "difference")), 0.5)
stopifnot(answer$treated != answer$control)
near(part_of(contrast("dag { X -> Y }", arms, "X", "Y", treated = 0.1 + 0.2, control = 0.3, resamples = 0, outcome = 1), "risk_treated"), 0.8)

near(unique(as.data.frame(evaluate("dag { X -> Y }", arms, "X", "Y"))$X), c(0.3, 0.1 + 0.2), 1e-12)
same(anyDuplicated(sub(" .*", "", sub("^[0-9]+ +", "", capture.output(print(evaluate("dag { X -> Y }", arms, "X", "Y"))[c(1, 3), ])[c(2, 4)]))), 0L)
# and so do times and dates whose parts of a second or a day aren't printed
for (apart in list(as.POSIXct("2020-01-01", tz = "UTC") + c(0.1, 0.3), as.Date(c(100.1, 100.3), origin = "1970-01-01"), as.difftime(c(0.1 + 0.2, 0.3), units = "hours"))) {
  timed <- data.frame(X = rep(apart, each = 10), Y = arms$Y)
  near(abs(part_of(contrast("dag { X -> Y }", timed, "X", "Y", resamples = 0, outcome = 1), "difference")), 0.5)
  near(part_of(contrast("dag { X -> Y }", timed, "X", "Y", treated = apart[1], control = apart[2], resamples = 0, outcome = 1), "risk_treated"), 0.8)
}
refused(contrast("dag { X -> Y }", arms, "X", "Y", treated = 0.3, control = 0.3), "argument", "the same level")
refused(estimate("dag { X -> Y }", arms, "X", "Y", treated = 0.3, control = 0.3), "argument", "the same level")

# Rows that are bound together keep their arms
three <- data.frame(X = rep(0:2, each = 10), Y = rep(c(0, 1), 15))
bound <- rbind(contrast("dag { X -> Y }", three, "X", "Y", treated = 2, control = 0, resamples = 0),
               contrast("dag { X -> Y }", three, "X", "Y", treated = 1, control = 0, resamples = 0))
same(unique(bound$treated), c("2", "1"))
stopifnot(any(grepl(" 1 +0 +risk", capture.output(print(bound)))))

# A declared level of the outcome without a record has the value 0
few <- data.frame(X = rep(0:1, each = 20), Y = factor(rep("alive", 40), c("alive", "dead")))
near(evaluate("dag { X -> Y }", few, "X", "Y")$estimate, c(1, 0, 1, 0))
near(part_of(suppressWarnings(contrast("dag { X -> Y }", few, "X", "Y", outcome = "dead", resamples = 5)), "risk_treated"), 0)

# Left-out records are counted as such, and the columns that lack values are named
holes <- data.frame(X = c(NA, 0, 0, 1, 1), Y = c(1, 0, 1, 0, 1), n = c(500, 25, 25, 25, 25))
refused(evaluate("dag { X -> Y }", holes, "X", "Y", count = "n"), "missing_values", "500 of 600 records have a missing value in a column that the answer needs (X: 500)")
same(attr(evaluate("dag { X -> Y }", holes, "X", "Y", count = "n", missing = "drop"), "dropped"), 500)
same(nrow(evaluate("dag { X -> Y }", holes, "X", "Y", count = "n", missing = "level")), 6L)

# Lost resamples, few events and intervals of width 0 are told beside each number
thin <- data.frame(S = c(0, 0, 0, 0, 1, 1, 1, 1), T = c(0, 0, 1, 1, 0, 0, 1, 1), R = c(0, 1, 0, 1, 0, 1, 1, 1))
found <- doubted(answer <- contrast("dag { S -> T S -> R T -> R }", thin, "T", "R", resamples = 50))
stopifnot(grepl("resamples had no value", found), all(grepl("of 50 resamples had no value", answer$note)), grepl("few events|few without the outcome", answer$note))
stopifnot(grepl("of 50 resamples had no value", as.data.frame(answer)$note), any(grepl("note: .*resamples had no value", capture.output(print(answer)))))
none <- data.frame(X = rep(0:1, each = 30), Y = c(rep(0, 30), rep(1, 10), rep(0, 20)))
answer <- contrast("dag { X -> Y }", none, "X", "Y", outcome = 1, resamples = 50)
stopifnot(grepl("few events: 0 of 30 records of 0 (by the rule of three up to 0.1); an interval of width 0 says nothing", part_of(answer, "risk_control", "note"), fixed = TRUE))
same(part_of(answer, "risk_treated", "note"), "")
most <- contrast("dag { X -> Y }", transform(none, Y = 1 - c(rep(0, 30), rep(1, 3), rep(0, 27))), "X", "Y", outcome = 1, resamples = 50)
stopifnot(grepl("few without the outcome: 3 of 30 records of 1", part_of(most, "risk_treated", "note"), fixed = TRUE),
          grepl("few without the outcome: 0 of 30 records of 0", part_of(most, "risk_control", "note"), fixed = TRUE))

# So are they of means, and where an interval can't be corrected
numbers <- effect_means("dag { X -> Y }", data.frame(X = rep(0:1, each = 20), Y = c(rep(3, 20), rep(1:4, 5))), "X", "Y", resamples = 30)
same(part_of(numbers, "mean", "note"), c("an interval of width 0 says nothing: no resample differs", ""))
same(part_of(numbers, "difference", "note"), c("", ""))
flat <- contrast("dag { X -> Y }", none, "X", "Y", outcome = 1, resamples = 50, interval = "bca")
stopifnot(is.na(part_of(flat, "risk_control", "conf_low")) == grepl("no BCa interval", part_of(flat, "risk_control", "note")))
lost <- doubted(answer <- effect_means("dag { S -> T S -> R T -> R }", thin, "T", "R", resamples = 50))
stopifnot(grepl("resamples had no value", lost), grepl("of 50 resamples had no value", answer$note))

# Weights aren't counts
weights <- data.frame(X = rep(0:1, 50), Y = rep(c(0, 1, 1, 0, 1), 20), w = rep(c(1.5, 20, 3), length.out = 100))
refused(evaluate("dag { X -> Y }", weights, "X", "Y", count = "w"), "counts_fault", "weights of a survey are given as `weights`")
whole <- transform(weights, w = round(10 * w))
found <- doubted(answer <- contrast("dag { X -> Y }", whole, "X", "Y", count = "w", outcome = 1, resamples = 20))
stopifnot(grepl("w holds frequencies, so that 100 rows stand for 8,100 records; but 96 rows are like another in all else", found))
stopifnot(any(grepl("w holds frequencies: 8,100 records", capture.output(print(answer)))))
same(doubted(contrast("dag { T -> R }", kidney_stones, "T", "R", count = "count", treated = "A", control = "B", resamples = 5)), character())

# What is no yes or no isn't taken for no
refused(evaluate("dag { X -> Y }", whole, "X", "Y", exact = "yes"), "argument", "`exact` is TRUE or FALSE")
refused(evaluate("dag { X -> Y }", whole, "X", "Y", zero = 1), "argument", "`zero` is TRUE or FALSE")
refused(adjusts("dag { X -> Y }", character(), "X", "Y", back_door = NA), "argument", "`back_door` is TRUE or FALSE")

# A refusal names what would answer
sparse <- data.frame(A = rep(0:1, each = 20), B = c(rep(0, 38), 1, 1), X = c(rep(0:1, 19), 1, 1), Y = rep(c(0, 0, 1, 1, 1), 8))
both <- causal_diagram("dag { X [exposure] Y [outcome] A -> X A -> B -> Y X -> Y }")
refused(evaluate(both, sparse, set = "B"), "evaluation_fault", "set = \"A\" (it has a value)")
refused(evaluate(both, sparse, set = "B"), "evaluation_fault", "bounds_effect(set = \"B\") says what the effect is at least and at most")
refused(evaluate("dag { X -> Y X <-> Y }", sparse, "X", "Y"), "not_identifiable", "bounds_effect()")
wide <- as.data.frame(lapply(stats::setNames(1:10, LETTERS[1:10]), function(k) (seq_len(60) * k) %/% 7 %% 4))
confounders <- paste("dag { X [exposure] Y [outcome] X -> Y", paste(LETTERS[1:10], "-> X", LETTERS[1:10], "-> Y", collapse = " "), "}")
refused(evaluate(confounders, cbind(wide, X = 0:1, Y = c(0, 1, 1)), zero = FALSE), "counts_fault", "A 4, B 4, C 4")
# and over the strata that occur it speaks of the columns, and names no bounds that would be refused
for (call in list(evaluate, contrast)) {
  refused(call(confounders, cbind(wide, X = 0:1, Y = c(0, 1, 1))), "evaluation_fault", "A=0, B=0, C=0")
  refused(call(confounders, cbind(wide, X = 0:1, Y = c(0, 1, 1))), "evaluation_fault", "which P(Y|X,A,B,C,D,E,F,G,H,I,J) is given")
  refused(call(confounders, cbind(wide, X = 0:1, Y = c(0, 1, 1))), "evaluation_fault", "and bounds_effect() says")
}
refused(evaluate("dag { X -> Y }", stats::setNames(sparse[3:4], c("X ", "Y")), "X", "Y"), "counts_fault", "did you mean \"X \"?")

# Old words warn, and are what they were
answer <- contrast("dag { X -> Y }", none, "X", "Y", resamples = 20)
old <- function(call) {
  warned <- 0
  value <- withCallingHandlers(call, deprecatedWarning = function(it) {
    warned <<- warned + 1
    invokeRestart("muffleWarning")
  })
  stopifnot(warned == 1)
  value
}
same(old(answer$difference), part_of(answer, "difference"))
same(old(answer$ratio_upper), part_of(answer, "ratio", "conf_high"))
effects <- evaluate("dag { X -> Y }", none, "X", "Y")
same(old(effects$value), effects$estimate)
same(old(cut_tests$p), cut_tests$p_value)
same(old(cut_tests$largest), cut_tests$largest_difference)

# A generic of another package that is attached later leads here still
if (nzchar(system.file(package = "generics"))) {
  library(generics)
  same(evaluate(causal_diagram("dag { X -> Y }"), none, "X", "Y"), effects)
  same(evaluate("dag { X -> Y }", none, "X", "Y"), effects)
} else cat("skipped: generics: the package isn't there\n")

# All refusals have one class
for (call in list(quote(causal_diagram("dag {")), quote(read_diagram("no such file")), quote(evaluate("dag { X -> Y }", 1, "X", "Y")),
                  quote(evaluate("dag { X -> Y }", none, "X", "Y", count = 3)), quote(contrast("dag { X -> Y }", none, "X", "Y", level = 2)),
                  quote(contrast("dag { X -> Y }", none, "X", "Y", treated = 7, control = 0)), quote(identify_effect("dag { X -> Y }", "x", "Y")),
                  quote(separated("dag { X -> Y }", "X", 'a"b', character())), quote(surrogate("dag { X -> Y }", "X", "Y")),
                  quote(contrast("dag { X -> Y X <-> Y }", none, "X", "Y")), quote(rule_holds("dag { X -> Y }", 4, "X", "Y")),
                  quote(contrast("dag { X -> Y }", none, "X", "Y", interval = "t")), quote(adjustment_sets("dag { X -> Y }", "X", "Y", most = 0)),
                  quote(instruments("dag { X -> Y }", "X", "Y", most = 0)),
                  quote(contrast("dag { X -> Y }", none, "X", "Y", seed = "a")), quote(paths("dag { X -> Y }", "X", "Q")),
                  quote(equivalent("dag { X -> Y }", 3))))
  if (!inherits(tryCatch(eval(call), error = identity), "causal_refusal")) stop("no refusal: ", deparse(call))
