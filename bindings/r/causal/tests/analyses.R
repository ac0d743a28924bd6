# Whole analyses, each as it is typed, beside the truth of the model that it is drawn from, or the same number by hand. A warning would be
# a workaround that is wanted.
library(causal)
options(warn = 2)
set.seed(20)
near <- function(found, wanted, by) stopifnot(length(found) == 1, abs(found - wanted) <= by)
chance <- function(p) stats::rbinom(length(p), 1, p)
difference <- function(contrast) contrast$estimate[contrast$measure == "difference"]
by_hand <- function(frame, x, y, members) {
  strata <- interaction(frame[members], drop = TRUE)
  weights <- table(strata) / nrow(frame)
  arm <- function(level) sum(weights * tapply(frame[[y]][frame[[x]] == level], strata[frame[[x]] == level], mean))
  arm(1) - arm(0)
}

# Confounding, with names and levels of another language, and a level that nobody has
n <- 8000
age <- sample(c("moins de 40", "40 \u00e0 60", "plus de 60"), n, TRUE, c(0.3, 0.4, 0.3))
old <- unname(c("moins de 40" = 0, "40 \u00e0 60" = 0.3, "plus de 60" = 0.6)[age])
french <- data.frame(factor(age, c("moins de 40", "40 \u00e0 60", "plus de 60", "inconnu")), chance(0.2 + old / 2))
names(french) <- c("\u00e2ge (ann\u00e9es)", "traitement")
french[["d\u00e9c\u00e8s \u00e0 30 jours"]] <- chance(0.1 + 0.12 * french$traitement + old / 3)
edges <- data.frame(from = names(french)[c(1, 1, 2)], to = names(french)[c(2, 3, 3)])
study <- as_causal_diagram(edges, exposure = names(french)[2], outcome = names(french)[3])
found <- difference(contrast(study, french, outcome = 1, resamples = 100))
near(found, by_hand(french, names(french)[2], names(french)[3], names(french)[1]), 1e-12)
near(found, 0.12, 0.04)
stopifnot(any(grepl("\\text{d\u00e9c\u00e8s \u00e0 30 jours}", identify_effect(study)$latex, fixed = TRUE)))

# A front door
n <- 40000
hidden <- chance(rep(0.5, n))
X <- chance(0.2 + 0.6 * hidden)
M <- chance(0.1 + 0.7 * X)
door <- data.frame(X, M, Y = chance(0.1 + 0.3 * M + 0.4 * hidden))
found <- difference(contrast("dag { X [exposure] Y [outcome] X -> M -> Y X <-> Y }", door, outcome = 1, resamples = 100))
inner <- vapply(0:1, function(m) sum(vapply(0:1, function(x) mean(X == x) * mean(door$Y[X == x & M == m]), 0)), 0)
near(found, sum(vapply(0:1, function(m) (mean(M[X == 1] == m) - mean(M[X == 0] == m)) * inner[m + 1], 0)), 1e-12)
near(found, 0.21, 0.03)

# The napkin, at both levels of what is pinned
n <- 30000
one <- chance(rep(0.5, n))
two <- chance(rep(0.5, n))
W <- chance(0.2 + 0.3 * one + 0.3 * two)
Z <- chance(0.2 + 0.6 * W)
X <- chance(0.2 + 0.4 * Z + 0.3 * one)
napkin <- data.frame(W, Z, X, Y = chance(0.1 + 0.3 * X + 0.4 * two))
paper <- causal_diagram("dag { X [exposure] Y [outcome] W -> Z -> X -> Y W <-> X W <-> Y }")
for (level in 0:1) near(difference(contrast(paper, napkin, outcome = 1, at = list(Z = level), resamples = 0)), 0.3, 0.05)
stopifnot(nrow(pin_spread(paper, napkin)) == 8)

# A mediator: the total effect, and the direct one at M = 0
n <- 20000
C <- chance(rep(0.5, n))
X <- chance(0.3 + 0.4 * C)
M <- chance(0.2 + 0.4 * X + 0.2 * C)
mediated <- data.frame(C, X, M, Y = chance(0.1 + 0.1 * X + 0.3 * M + 0.2 * C))
paths <- causal_diagram("dag { X [exposure] Y [outcome] C -> X -> M -> Y X -> Y C -> M C -> Y }")
near(difference(contrast(paths, mediated, outcome = 1, resamples = 50)), 0.22, 0.04)
near(difference(contrast(paths, mediated, x = c("X", "M"), treated = c(1, 0), control = c(0, 0), outcome = 1, resamples = 50)), 0.1, 0.04)

# A trial with noncompliance: of the assignment, of the treatment by bounds
n <- 10000
Z <- chance(rep(0.5, n))
hidden <- chance(rep(0.5, n))
X <- Z * chance(0.3 + 0.6 * hidden)
trial <- data.frame(Z, X, Y = chance(0.3 + 0.2 * X + 0.2 * hidden))
design <- causal_diagram("dag { Z -> X -> Y X <-> Y }")
near(difference(contrast(design, trial, "Z", "Y", outcome = 1, resamples = 50)), 0.12, 0.04)
stopifnot(inherits(tryCatch(contrast(design, trial, "X", "Y", outcome = 1), error = identity), "causal_not_identifiable"))
bounds <- as.data.frame(bounds_effect(design, trial, "X", "Y", instrument = "Z", treated = 1, control = 0, outcome = 1))
ends <- bounds[bounds$measure == "difference", ]
stopifnot(ends$at_least <= 0.2, ends$at_most >= 0.2)

# Two treatments over time: arms stand in the order that was typed
n <- 60000
L0 <- chance(rep(0.5, n))
A0 <- chance(0.3 + 0.4 * L0)
L1 <- chance(0.3 + 0.3 * L0 - 0.2 * A0)
A1 <- chance(0.2 + 0.5 * L1)
times <- data.frame(L0, A0, L1, A1, Y = chance(0.4 - 0.1 * A0 - 0.05 * A1 + 0.3 * L1))
course <- causal_diagram("dag { L0 -> A0 L0 -> L1 A0 -> L1 L1 -> A1 A0 -> Y A1 -> Y L1 -> Y }")
near(difference(contrast(course, times, c("A1", "A0"), "Y", treated = c(1, 1), control = c(0, 0), outcome = 1, resamples = 50)), -0.21, 0.03)
near(difference(contrast(course, times, c("A1", "A0"), "Y", treated = c(1, 0), control = c(0, 0), outcome = 1, resamples = 0)), -0.05, 0.03)

# A collider that must not be adjusted for
n <- 20000
one <- chance(rep(0.5, n))
two <- chance(rep(0.5, n))
M <- chance(0.1 + 0.4 * one + 0.4 * two)
X <- chance(0.2 + 0.5 * one)
bias <- data.frame(M, X, Y = chance(0.2 + 0.2 * X + 0.4 * two))
letter <- causal_diagram("dag { X [exposure] Y [outcome] X <-> M M <-> Y X -> Y }")
stopifnot(!adjusts(letter, "M")$holds, adjusts(letter, "M")$path$text == "X <-> M <-> Y")
stopifnot(inherits(tryCatch(contrast(letter, bias, outcome = 1, set = "M"), error = identity), "causal_not_admissible"))
near(difference(contrast(letter, bias, outcome = 1, resamples = 50)), 0.2, 0.04)

# The effect among some
n <- 30000
S <- chance(rep(0.4, n))
X <- chance(0.3 + 0.3 * S)
some <- data.frame(S, X, Y = chance(0.1 + 0.1 * X + 0.2 * S + 0.1 * X * S))
near(difference(contrast("dag { S -> X -> Y S -> Y }", some, "X", "Y", given = c(S = 1), treated = 1, control = 0, outcome = 1, resamples = 50)), 0.2, 0.04)

# A published table: children and crew
titanic <- causal_diagram("dag { Sex [exposure] Survived [outcome] Class -> Sex Class -> Survived Age -> Sex Age -> Survived Class <-> Age Sex -> Survived }")
values <- evaluate(titanic, Titanic)
near(values$estimate[values$Sex == "Female" & values$Survived == "Yes"], 0.753610928971963, 1e-13)

# A numeric outcome with three arms
n <- 5000
C <- sample(0:2, n, TRUE)
dose <- pmin(2, stats::rpois(n, 0.4 + 0.3 * C))
stay <- data.frame(C, dose, days = stats::rpois(n, 2 + dose + C))
ward <- causal_diagram("dag { dose [exposure] days [outcome] C -> dose -> days C -> days }")
means <- effect_means(ward, stay, resamples = 50)
for (arm in 0:2) near(means$estimate[means$dose == arm & means$measure == "mean"], sum(table(C) / n * tapply(stay$days[dose == arm], C[dose == arm], mean)), 1e-9)

# Ten confounders of four levels, of which 40 strata occur
strata <- matrix(sample(0:3, 400, TRUE), 40, 10, dimnames = list(NULL, paste0("c", 0:9)))
wide <- as.data.frame(strata[sample(40, 4000, TRUE), ])
wide$X <- chance(rep(0.5, 4000))
wide$Y <- chance(rep(0.5, 4000))
many <- causal_diagram(paste("dag { X [exposure] Y [outcome] X -> Y", paste0("c", 0:9, " -> X c", 0:9, " -> Y", collapse = " "), "}"))
found <- contrast(many, wide, outcome = 1, resamples = 50)
near(difference(found), by_hand(wide, "X", "Y", paste0("c", 0:9)), 1e-12)
stopifnot(any(grepl("over the 40 strata of c0, c1, .* that occur, of 1,048,576 combinations", capture.output(print(found)))))
weighted <- contrast(many, transform(wide, w = 3, school = seq_len(4000) %% 40), outcome = 1, resamples = 20, weights = "w", clusters = "school")
near(difference(weighted), by_hand(wide, "X", "Y", paste0("c", 0:9)), 1e-9)
stopifnot(inherits(tryCatch(evaluate(many, wide, zero = FALSE), error = identity), "causal_counts_fault"))

# Twelve variables: by the formula, by models, what is implied, and where records lack
n <- 20000
ses <- sample(0:2, n, TRUE)
sex <- chance(rep(0.5, n))
smoke <- chance(0.2 + 0.1 * (2 - ses))
age <- pmin(2, stats::rpois(n, 1.6))
bmi <- pmin(3, stats::rpois(n, 0.6 + 0.2 * ses))
chol <- pmin(2, stats::rpois(n, 0.5 + 0.4 * bmi + 0.2 * smoke))
statin <- chance(pmin(0.02 + 0.08 * chol + 0.07 * age + 0.02 * ses, 0.6))
bp <- chance(0.1 + 0.05 * bmi + 0.05 * age)
ldl <- chance(0.6 - 0.3 * statin + 0.05 * chol)
plaque <- chance(0.05 + 0.2 * ldl + 0.1 * smoke)
visit <- chance(0.3 + 0.1 * ses)
cohort <- data.frame(ses, sex, smoke, age, bmi, chol, statin, bp, ldl, plaque, visit, mi = chance(0.02 + 0.15 * plaque + 0.05 * bp + 0.02 * age + 0.01 * sex))
drawn <- causal_diagram(paste("dag { statin [exposure] mi [outcome] ses -> smoke ses -> bmi ses -> statin ses -> visit sex -> mi smoke -> chol smoke -> plaque",
  "age -> statin age -> bp age -> mi bmi -> chol bmi -> bp chol -> statin chol -> ldl statin -> ldl -> plaque -> mi bp -> mi }"))
near(difference(contrast(drawn, cohort, outcome = 1, resamples = 20)), -0.3 * 0.2 * 0.15, 0.015)
near(difference(estimate(drawn, cohort, outcome = 1, method = "aipw")), -0.009, 0.015)
stopifnot(nrow(support(drawn, cohort)) > 10, sum(test_implications(drawn, cohort, method = "chi-squared")$p_holm < 0.05, na.rm = TRUE) < 3)
