# Means of a numeric outcome under each level of the exposures, and their differences from that under `control`.

effect_means <- function(diagram, data, x = NULL, y = NULL, control = NULL, count = NULL, level = 0.95, resamples = 1000, seed = 0,
                         missing = c("error", "drop", "level"), at = NULL, interval = c("percentile", "bca"), set = NULL, given = NULL,
                         progress = NULL, back_door = FALSE, zero = TRUE, short = is.null(set), weights = NULL, clusters = NULL,
                         strata = NULL) {
  asked <- asked_of(diagram, x, y, set, given, back_door, zero, short)
  drawn <- bootstrapped(asked, data, count, one_of(missing), at, level, resamples, seed, one_of(interval), progress,
                        design_of(weights, clusters, strata))
  means_frame(drawn, control)
}

# A row for each level of the exposures, and of what is given, and each measure: the mean and its difference.
means_frame <- function(drawn, control) {
  table <- drawn$table
  kept <- which(wanted_cells(drawn$effects, table, drawn$asked))
  effects <- chosen_cells(drawn$effects, kept)
  outcome <- names(effects$y[[1]])
  if (length(outcome) != 1) refuse("a mean is of one outcome")
  numbers <- numbers_of(table, outcome)[vapply(effects$y, function(cell) as.integer(cell[[outcome]]), 0L)]
  given <- vapply(effects$given, paste, "", collapse = ",")
  keys <- paste(vapply(effects$x, paste, "", collapse = ","), given, sep = "|")
  rows <- which(!duplicated(keys))
  mean_at <- function(values, key) rowSums(values[, kept[keys == key], drop = FALSE] * rep(numbers[keys == key], each = nrow(values)))
  means <- function(values) matrix(vapply(keys[rows], mean_at, numeric(nrow(values)), values = values), nrow(values), length(rows))
  reference <- match(paste(reference_key(drawn, control), given[rows], sep = "|"), keys[rows])
  mean <- measured(drawn, means)
  difference <- measured(drawn, function(values) means(values) - means(values)[, reference, drop = FALSE])
  difference[c("lower", "upper")] <- lapply(difference[c("lower", "upper")], replace, unique(reference), NA)
  both <- function(part) c(rbind(mean[[part]], difference[[part]]))
  levels <- c(columns_of(effects$x[rows], table), columns_of(effects$given[rows], table))
  against <- if (length(effects$x[[1]])) arm_text(labels_at(table, effects$x[[rows[reference[1]]]])) else NA_character_
  lost <- sum(is.na(drawn$drawn[, 1]))
  columns <- c(lapply(levels, rep, each = 2), list(control = rep(c(NA, against), length(rows)), measure = rep(c("mean", "difference"), length(rows))),
               list(estimate = both("value"), conf_low = both("lower"), conf_high = both("upper"),
                    note = means_notes(drawn, mean, difference, unique(reference))))
  structure(frame_of(columns), class = c("causal_means", "causal_rows", "data.frame"), outcome = outcome, level = drawn$level,
            resamples = nrow(drawn$drawn), interval = drawn$kind, without_value = lost, seed = drawn$seed,
            control = levels_at(table, effects$x[[rows[reference[1]]]]), pinned = levels_at(table, effects$pinned), dropped = table$dropped,
            weighted = !is.null(table$survey), frequencies = frequency_note(table), strata = table$strata)
}

# The difference of an arm from itself has no interval, and nothing is said of it.
means_notes <- function(drawn, mean, difference, references) {
  difference$value[references] <- NA
  both <- function(part) c(rbind(mean[[part]], difference[[part]]))
  joined_notes(list(lost_note(drawn), end_notes(drawn, both("value"), both("lower"), both("upper"))), 2 * length(mean$value))
}

# Which levels of the exposures the means are compared with: the first, unless they are given.
reference_key <- function(drawn, control) {
  names <- names(drawn$effects$x[[1]])
  place <- if (is.null(control) || !length(names)) 1 else which(arm_of(control, drawn, names))[1]
  paste(drawn$effects$x[[place]], collapse = ",")
}

# The number that each level of an outcome is.
numbers_of <- function(table, name) {
  levels <- table$levels[[name]]
  numbers <- suppressWarnings(as.numeric(if (is.factor(levels)) as.character(levels) else levels))
  if (!all(is.finite(numbers))) refuse(name, " has a level that is no number: ", as.character(levels)[!is.finite(numbers)][1])
  numbers
}

old_means <- c("mean", "lower", "upper", "difference", "difference_lower", "difference_upper")

`$.causal_means` <- function(x, name) {
  if (name %in% names(x) || !name %in% old_means) return(.subset2(x, name))
  old_measure(x, switch(name, lower = "mean_lower", upper = "mean_upper", name))
}

print.causal_means <- function(x, digits = 4, ...) {
  if (!all(c("control", "measure", "estimate", "conf_low", "conf_high") %in% names(x))) return(print.data.frame(x, digits = digits, ...))
  control <- attr(x, "control")
  writeLines(paste0("mean of ", attr(x, "outcome"), if (length(control)) paste0("; difference from ", level_text(control))))
  levels <- names(x)[seq_len(match("control", names(x)) - 1)]
  shown <- if (length(levels)) x else structure(cbind(` ` = "", as.data.frame(x)), class = "data.frame")
  print_with_notes(x, shown_measures(shown, if (length(levels)) levels else " ", digits), ...)
}
