# Answers as plain data frames, by the names that the package broom gives their columns: `tidy` has a row for each part of an answer,
# `glance` one for the whole. The package generics isn't needed; where it is loaded, its generics get these methods.

tidy_methods <- list(
  causal_diagram = function(x, ...) x$edges,
  # A yes or no, and the path or the text that shows it.
  causal_answer = function(x, ...) {
    holds <- if (is.null(x$holds) && is.null(x$identifiable)) NA else as.logical(x)
    frame_of(list(holds = holds, path = if (is.null(x$path)) NA_character_ else as.character(x$path), text = x$text))
  },
  causal_formula = function(x, ...) {
    definitions <- if (length(x$definitions)) paste0("q", seq_along(x$definitions) - 1)
    frame_of(list(term = c(x$target, definitions), expression = c(x$expression, x$definitions)))
  },
  causal_hedge = function(x, ...) {
    sets <- x[c("big", "small", "roots")]
    frame_of(list(set = rep(names(sets), lengths(sets)), term = unlist(sets, use.names = FALSE)))
  },
  causal_sets = function(x, ...) stats::setNames(as.data.frame(x), c("set", "term")),
  causal_instruments = function(x, ...) as.data.frame(x),
  causal_implications = function(x, ...) as.data.frame(x),
  causal_tests = function(x, ...) {
    frame_of(list(a = x$a, b = x$b, given = as.character(x$given), estimate = x$effect_size, statistic = x$statistic, parameter = x$df,
                  p.value = x$p_value, adj.p.value = x$p_holm, method = x$method, largest = x$largest_difference, rmsea = x$rmsea,
                  rmsea.low = x$rmsea_low, rmsea.high = x$rmsea_high, note = x$note))
  },
  # The levels of a cell, then its value; what follows bounds the rounding, and is no interval.
  causal_effects = function(x, ...) as.data.frame(x),
  causal_spread = function(x, ...) as.data.frame(x),
  causal_contrast = function(x, ...) broom_names(x),
  causal_means = function(x, ...) broom_names(x),
  causal_estimate = function(x, ...) broom_names(x),
  causal_mediation = function(x, ...) broom_names(x),
  causal_support = function(x, ...) as.data.frame(x),
  causal_bounds = function(x, ...) as.data.frame(x),
  causal_comparison = function(x, ...) broom_names(x),
  causal_paths = function(x, ...) as.data.frame(x)
)

glance_methods <- list(
  causal_diagram = function(x, ...) {
    counts <- summary(x)
    frame_of(list(vertices = length(counts$vertices), directed = counts$directed, bidirected = counts$bidirected))
  },
  causal_answer = function(x, ...) tidy_methods$causal_answer(x)["holds"],
  causal_formula = function(x, ...) {
    frame_of(list(target = x$target, identifiable = TRUE, definitions = length(x$definitions), free = cell_or_set(x$free)))
  },
  causal_hedge = function(x, ...) {
    frame_of(list(target = if (is.null(x$conditional)) x$target else x$conditional, identifiable = FALSE,
                  difference = if (is.null(x$difference)) NA_real_ else x$difference))
  },
  causal_stopped = function(x, ...) frame_of(list(target = x$target, identifiable = FALSE, district = cell_or_set(x$district))),
  causal_sets = function(x, ...) frame_of(list(sets = length(x$sets), complete = !x$more)),
  causal_instruments = function(x, ...) frame_of(list(instruments = length(x$strata), complete = !length(x$more))),
  causal_implications = function(x, ...) {
    frame_of(list(pairs = nrow(x), nonzero = if (is.null(x$exact)) NA_integer_ else sum(x$exact != "0"), dropped = dropped_from(x)))
  },
  causal_tests = function(x, ...) {
    known <- x$p_holm[!is.na(x$p_holm)]
    frame_of(list(pairs = nrow(x), tested = length(known), adj.p.value = if (length(known)) min(known) else NA_real_,
                  permutations = attr(x, "permutations"), seed = seed_of(x), dropped = dropped_from(x)))
  },
  causal_effects = function(x, ...) frame_of(list(cells = nrow(x), pinned = levels_or_none(attr(x, "pinned")), dropped = dropped_from(x))),
  causal_spread = function(x, ...) {
    frame_of(list(cells = nrow(x), widest = widest(x), without_value = length(attr(x, "without_value")), dropped = dropped_from(x)))
  },
  causal_contrast = function(x, ...) {
    frame_of(c(list(treated = levels_or_none(attr(x, "treated")), control = levels_or_none(attr(x, "control"))), of_intervals(x)))
  },
  causal_means = function(x, ...) frame_of(c(list(outcome = attr(x, "outcome"), control = levels_or_none(attr(x, "control"))), of_intervals(x))),
  causal_estimate = function(x, ...) {
    set <- attr(x, "set")
    frame_of(list(outcome = attr(x, "outcome"), method = attr(x, "method"), set = if (is.null(set)) NA_character_ else cell_or_set(set),
                  models = paste(attr(x, "models")$model, collapse = "; "), conf.level = attr(x, "level"), conf.method = attr(x, "interval"),
                  resamples = attr(x, "resamples"), without_value = attr(x, "lost"), nobs = attr(x, "records"), dropped = dropped_from(x)))
  },
  causal_mediation = function(x, ...) frame_of(c(list(outcome = attr(x, "outcome"), through = cell_or_set(attr(x, "through"))), of_intervals(x))),
  causal_support = function(x, ...) frame_of(c(lacking_support(x), list(dropped = dropped_from(x)))),
  causal_bounds = function(x, ...) frame_of(list(cells = nrow(x), widest = max(x$at_most - x$at_least), dropped = dropped_from(x))),
  causal_comparison = function(x, ...) frame_of(list(ways = nrow(x), agree = !length(apart_sets(x)), complete = !isTRUE(attr(x, "more"))))
)

# The names that broom gives the columns: the measure is a term.
broom_names <- function(x) {
  columns <- as.data.frame(x)
  if (!all(c("measure", "estimate", "conf_low", "conf_high") %in% names(columns))) return(columns)
  names(columns)[match(c("measure", "conf_low", "conf_high"), names(columns))] <- c("term", "conf.low", "conf.high")
  names(columns)[names(columns) == "std_error"] <- "std.error"
  columns
}

levels_or_none <- function(levels) if (length(levels)) level_text(levels) else NA_character_

seed_of <- function(x) if (is.null(attr(x, "seed"))) NA_real_ else as.numeric(attr(x, "seed"))

dropped_from <- function(x) if (is.null(attr(x, "dropped"))) 0 else as.numeric(attr(x, "dropped"))

of_intervals <- function(x) {
  list(conf.level = attr(x, "level"), conf.method = attr(x, "interval"), resamples = attr(x, "resamples"),
       without_value = attr(x, "without_value"), seed = seed_of(x), pinned = levels_or_none(attr(x, "pinned")), dropped = dropped_from(x))
}
