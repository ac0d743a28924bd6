# Drawings of the package ggplot2.
library(causal)
part_of <- function(answer, measure, column = "estimate") as.data.frame(answer)[[column]][answer$measure == measure]
own <- function(name) getFromNamespace(name, "causal")
same <- function(a, b) stopifnot(identical(a, b))

if (!nzchar(system.file(package = "ggplot2"))) {
  cat("skipped: autoplot: the package ggplot2 isn't there\n")
  quit()
}
autoplot <- getExportedValue("ggplot2", "autoplot")
# Each drawing can be drawn; its layers' data.
drawn <- function(plot) {
  stopifnot(inherits(plot, "ggplot"))
  pdf(NULL)
  on.exit(dev.off())
  print(plot)
  getExportedValue("ggplot2", "ggplot_build")(plot)$data
}
stones <- causal_diagram("dag { T [exposure] R [outcome] S -> T S -> R T -> R }")
layers <- drawn(autoplot(stones))
same(length(layers), 4L)
same(layers[[4]]$label, stones$vertices$name)
same(unique(layers[[4]]$colour), "#333333")
same(sort(unique(layers[[4]]$fill)), sort(unname(own("role_colours")[c("exposure", "outcome", "none")])))
layout <- rbind(T = c(0, 0), R = c(1, 0), S = c(0.5, 1))
same(drawn(autoplot(stones, layout = layout))[[4]]$x, unname(layout[stones$vertices$name, 1]))
hedge <- identify_effect("dag { X [exposure] Y [outcome] U [latent] X -> Y U -> X U -> Y }")
layers <- drawn(autoplot(hedge))
same(vapply(layers, function(layer) layer$colour[1], ""), rep("#c0392b", 3))
same(layers[[3]]$label, c("X", "Y"))
separation <- separated("dag { A -> B -> C D -> B }", "A", "C", character())
same(vapply(drawn(autoplot(separation))[1:3], function(layer) layer$colour[1], ""), c("#c0392b", "#c0392b", "#333333"))
# an edge runs round a name that stands between its ends
layers <- drawn(autoplot(causal_diagram("dag { A -> B -> C A -> C }"), layout = rbind(A = c(0, 0), B = c(1, 0), C = c(2, 0))))
same(vapply(layers[1:3], function(layer) max(abs(layer$y)) > 0.1, NA), c(FALSE, TRUE, FALSE))
for (it in list(identify_effect(stones), adjusts(stones, "S"), adjusts(stones, character()), rule_holds(stones, 2, "R", "T", given = "S"),
                causal_diagram("dag { \"a name, with = marks\" }"), causal_diagram("dag { }"),
                surrogate("dag { X [exposure] Y [outcome] X -> Y X <-> Y Z -> X }", experiments = "Z"))) drawn(autoplot(it))

# Intervals: those of the answer
answer <- contrast(stones, kidney_stones, treated = "A", control = "B", count = "count", resamples = 50, seed = 2)
for (term in c("difference", "ratio", "odds_ratio")) {
  layers <- drawn(autoplot(answer, measure = term))
  same(sort(layers[[3]]$x), sort(part_of(answer, term)))
  same(sort(layers[[2]]$xmin), sort(part_of(answer, term, "conf_low")))
  same(sort(layers[[2]]$xmax), sort(part_of(answer, term, "conf_high")))
  same(layers[[1]]$xintercept, if (term == "difference") 0 else 1)
}
same(nrow(drawn(autoplot(contrast(stones, kidney_stones, count = "count", resamples = 0)))[[3]]), 2L)
means <- effect_means(stones, transform(kidney_stones, R = R == "success", T = factor(T)), count = "count", resamples = 20, seed = 1)
layers <- drawn(autoplot(means))
same(sort(layers[[2]]$x), sort(part_of(means, "mean")))
same(sort(layers[[1]]$xmax), sort(part_of(means, "mean", "conf_high")))

# Tests of implications: the size of each difference
tests <- test_implications("dag { S -> T -> R }", kidney_stones, count = "count", seed = 1)
layers <- drawn(autoplot(tests))
same(layers[[3]]$x, tests$rmsea)
same(c(layers[[2]]$xmin, layers[[2]]$xmax), c(tests$rmsea_low, tests$rmsea_high))

# A comparison: a line for each way
compared <- compare(stones, kidney_stones, treated = "A", control = "B", outcome = "success", count = "count", resamples = 10)
layers <- drawn(autoplot(compared))
same(sort(layers[[3]]$x), sort(compared$estimate))
