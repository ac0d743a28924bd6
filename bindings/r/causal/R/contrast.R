# Contrasts of effects and means of outcomes, with their intervals by the bootstrap. The library gives the effects; the rest is
# arithmetic.

contrast <- function(diagram, data, x = NULL, y = NULL, treated = NULL, control = NULL, count = NULL, level = 0.95, resamples = 1000,
                     seed = 0, missing = c("error", "drop", "level"), at = NULL, interval = c("percentile", "bca"), set = NULL, given = NULL,
                     progress = NULL, back_door = FALSE, zero = TRUE, short = is.null(set), outcome = NULL, weights = NULL, clusters = NULL,
                     strata = NULL, observed = NULL) {
  asked <- asked_of(diagram, x, y, set, given, back_door, zero, short, among = observed)
  drawn <- bootstrapped(asked, data, count, one_of(missing), at, level, resamples, seed, one_of(interval), progress,
                        design_of(weights, clusters, strata))
  contrast_frame(drawn, arms_of(drawn, treated, control, outcome))
}

# The effects over the data, over resamples of its records, and for the interval "bca" without one record of each cell.
bootstrapped <- function(asked, data, count, missing, at, level, resamples, seed, kind, progress, design = NULL) {
  check_numbers(level, resamples)
  if (kind == "bca" && !is.null(design)) refuse("the interval \"bca\" isn't there for weights, clusters and strata; \"percentile\" is")
  narrow <- narrowed(asked, table_for(asked, data, count, missing, at, design))
  asked <- narrow$asked
  table <- narrow$table
  effects <- effects_of(asked, table)
  seed <- seed_or_drawn(seed)
  cells <- if (kind == "bca" && resamples > 0) which(table$counts > 0)
  values <- told_by(values_over(asked, table, effects), progress, resamples + length(cells))
  drawn <- with_seed(seed, resampled_values(values, table, effects, resamples))
  left_out <- if (length(cells)) values_without_one(values, table, cells)
  found <- list(asked = asked, effects = effects, table = table, values = values_of(effects), drawn = drawn, left_out = left_out, level = level,
                seed = seed, kind = kind)
  warn_of_lost(found)
  found
}

# Lost resamples make intervals too narrow.
warn_of_lost <- function(drawn) {
  lost <- sum(is.na(drawn$drawn[, 1]))
  if (lost >= 0.05 * nrow(drawn$drawn) && lost > 0)
    doubt(lost, " of ", nrow(drawn$drawn), " resamples had no value, so that the intervals are too narrow: the data are too thin for the formula",
          if (!is.null(drawn$asked$split)) ", or no model has the counts there", ". ", remedies(drawn$asked))
}

check_numbers <- function(level, resamples) {
  if (length(level) != 1 || !isTRUE(level > 0 && level < 1)) refuse("`level` is a number between 0 and 1")
  check_whole("resamples", resamples, 0)
}

# The places of the cells of both arms, in the order of the outcomes.
arms_of <- function(drawn, treated, control, outcome = NULL) {
  names <- names(drawn$effects$x[[1]])
  if (!length(names)) refuse("a contrast needs a set x of exposures that isn't empty")
  sizes <- lengths(drawn$table$levels[names])
  if (is.null(treated) && is.null(control) && length(names) == 1 && sizes == 2) {
    treated <- level_of(drawn$table, names, 2)
    control <- level_of(drawn$table, names, 1)
  }
  if (is.null(treated) || is.null(control))
    refuse("`treated` and `control` have to name the levels of ", paste(names, collapse = ", "), "; ", levels_told(drawn$table, names))
  wanted <- wanted_cells(drawn$effects, drawn$table, drawn$asked, outcome)
  arms <- lapply(list(treated = treated, control = control), function(arm) which(arm_of(arm, drawn, names) & wanted))
  check_arms(arms)
  arms
}

check_arms <- function(arms) {
  if (identical(arms$treated, arms$control)) refuse("`treated` and `control` are the same level, so that there is nothing to compare")
}

levels_told <- function(table, names) paste0(names, " has ", vapply(table$levels[names], function(levels) listed(level_labels(levels)), ""), collapse = "; ")

# Which cells an arm has: its levels are named, or stand in the order of `x` as it was given.
arm_of <- function(wanted, drawn, names) {
  levels <- if (is.list(wanted)) wanted else lapply(seq_along(wanted), function(k) wanted[k])
  wanted <- stats::setNames(levels, if (is.null(names(wanted))) order_of_arm(wanted, drawn$asked, names) else names(wanted))
  unknown <- setdiff(names(wanted), names)
  if (length(unknown)) refuse(unknown[1], " is no exposure; these are ", paste(names, collapse = ", "), meant(unknown[1], names))
  if (length(wanted) != length(names) || !setequal(names(wanted), names)) refuse("an arm needs one level of each of ", paste(names, collapse = ", "))
  codes <- vapply(names, function(name) {
    place <- place_of_level(drawn$table$levels[[name]], wanted[[name]])
    if (is.na(place)) no_level(name, as.character(wanted[[name]]), level_labels(drawn$table$levels[[name]]))
    place
  }, 0L)
  vapply(drawn$effects$x, function(cell) all(as.integer(cell[names]) == codes), NA)
}

order_of_arm <- function(wanted, asked, names) {
  if (length(wanted) != length(names)) refuse("an arm needs one level of each of ", paste(names, collapse = ", "))
  if (length(names) > 1 && !asked$typed)
    refuse("the levels of several exposures have to be named, as in c(", paste0(names, " = ..", collapse = ", "), "), where `x` doesn't give their order")
  if (asked$typed) asked$x else names
}

# One row for each resample of the table of counts: the values of all cells, or NA where the resample has none.
resampled_values <- function(values, table, effects, resamples) {
  if (resamples == 0) return(matrix(NA_real_, 0, length(effects$y)))
  size <- sum(table$counts)
  by_design <- !is.null(table$survey)
  if (size > .Machine$integer.max && !by_design) refuse("the bootstrap draws at most ", .Machine$integer.max, " records; use resamples = 0")
  room <- max(1, floor(4e6 / max(length(table$counts), length(table$survey$row))))
  blocks <- split(seq_len(resamples), (seq_len(resamples) - 1) %/% min(room, 250))
  do.call(rbind, lapply(blocks, function(block) {
    values(if (by_design) design_resamples(table$survey, length(table$counts), length(block)) else stats::rmultinom(length(block), size, table$counts))
  }))
}

# The same, for each cell of the table without one of its records; the attribute `records` says how many it has.
values_without_one <- function(values, table, cells) {
  blocks <- split(cells, (seq_along(cells) - 1) %/% 250)
  without <- lapply(blocks, function(block) {
    counts <- matrix(table$counts, length(table$counts), length(block))
    counts[cbind(block, seq_along(block))] <- counts[cbind(block, seq_along(block))] - 1
    values(counts)
  })
  structure(do.call(rbind, without), records = table$counts[cells])
}

# What is computed of the probabilities under both interventions.
measures <- list(
  risk_treated = function(treated, control) treated,
  risk_control = function(treated, control) control,
  difference = function(treated, control) treated - control,
  ratio = function(treated, control) ifelse(control > 0, treated / control, NA),
  odds_ratio = function(treated, control) ifelse(control > 0 & control < 1 & treated < 1, treated * (1 - control) / ((1 - treated) * control), NA)
)

# A row for each level of the outcomes, and of what is given, and each measure.
contrast_frame <- function(drawn, arms) {
  table <- drawn$table
  effects <- drawn$effects
  computed <- lapply(measures, function(measure) {
    measured(drawn, function(values) measure(values[, arms$treated, drop = FALSE], values[, arms$control, drop = FALSE]))
  })
  cells <- length(arms$treated)
  order <- order(rep(seq_len(cells), length(measures)))
  column <- function(part) unlist(lapply(computed, `[[`, part), use.names = FALSE)[order]
  levels <- c(columns_of(effects$given[arms$treated], table), columns_of(effects$y[arms$treated], table))
  arm <- lapply(arms, function(places) arm_text(labels_at(table, effects$x[[places[1]]])))
  columns <- c(lapply(levels, function(level) rep(level, each = length(measures))),
               lapply(arm, rep, cells * length(measures)),
               list(measure = rep(names(measures), cells), estimate = column("value"), conf_low = column("lower"), conf_high = column("upper")))
  columns$note <- interval_notes(drawn, columns, lapply(arms, function(places) few_events(drawn, places)), computed)
  structure(frame_of(columns), class = c("causal_contrast", "causal_rows", "data.frame"), level = drawn$level, resamples = nrow(drawn$drawn),
            interval = drawn$kind, without_value = sum(is.na(drawn$drawn[, 1])), without_ratio = computed$ratio$without, seed = drawn$seed,
            outcomes = c(names(effects$given[[1]]), names(effects$y[[1]])), exposures = names(effects$x[[1]]),
            treated = levels_at(table, effects$x[[arms$treated[1]]]), control = levels_at(table, effects$x[[arms$control[1]]]),
            pinned = levels_at(table, effects$pinned), dropped = table$dropped, weighted = !is.null(table$survey), frequencies = frequency_note(table),
            strata = table$strata, split = table$split)
}

# The level of one exposure, or those of several with their names.
arm_text <- function(labels) if (length(labels) == 1) labels[[1]] else level_text(labels)

# How many records have the outcome of each cell under the levels of its arm, and how many have these levels.
few_events <- function(drawn, places) {
  table <- drawn$table
  has <- function(cell) {
    if (!length(cell)) return(rep(TRUE, nrow(table$codes)))
    Reduce(`&`, lapply(names(cell), function(name) if (name %in% table$names) table$codes[, name] == as.integer(cell[[name]]) else TRUE))
  }
  lapply(places, function(k) {
    # (among the treated: those with the exposures as they are done, from which the risk is read)
    given <- drawn$effects$given[[k]]
    arm <- has(c(drawn$effects$x[[k]], given[!names(given) %in% drawn$asked$observed]))
    c(events = sum(table$records[arm & has(drawn$effects$y[[k]])]), records = sum(table$records[arm]))
  })
}

# That few records of an arm have the outcome, or are without it: then no interval reaches its level. Where none has it, the rule of three
# says how many may.
few_note <- function(found, arm) {
  without <- found[["records"]] - found[["events"]]
  least <- min(found[["events"]], without)
  if (least >= 5) return("")
  bound <- if (found[["events"]] == 0 && found[["records"]] >= 30) paste0(" (by the rule of three up to ", format(3 / found[["records"]], digits = 3), ")")
  paste0(if (without < found[["events"]]) "few without the outcome: " else "few events: ", format(least), " of ", format(found[["records"]]), " records of ", arm, bound)
}

# What a reader of a row has to know beside its numbers.
interval_notes <- function(drawn, columns, events, computed) {
  lost <- sum(is.na(drawn$drawn[, 1]))
  rows <- length(columns$measure)
  cell <- (seq_len(rows) - 1) %/% length(measures) + 1
  told <- lapply(names(events), function(arm) {
    vapply(cell, function(k) {
      few_note(events[[arm]][[k]], columns[[arm]][1])
    }, "")
  })
  needs <- list(treated = columns$measure != "risk_control", control = columns$measure != "risk_treated")
  without <- unlist(lapply(computed, `[[`, "without"))[order(rep(seq_len(rows / length(measures)), length(measures)))] - lost
  ends <- end_notes(drawn, columns$estimate, columns$conf_low, columns$conf_high)
  joined_notes(list(lost_note(drawn), ifelse(without > 0, paste(without, "more resamples had no ratio"), ""), ifelse(needs$treated, told[[1]], ""),
                    ifelse(needs$control, told[[2]], ""), ends), rows)
}

old_contrast <- c(outer(c("difference", "ratio", "odds_ratio"), c("", "_lower", "_upper"), paste0))

# The columns of before, of which each was a measure or one of its ends.
`$.causal_contrast` <- function(x, name) {
  if (name %in% names(x) || !name %in% old_contrast) return(.subset2(x, name))
  old_measure(x, name)
}

old_measure <- function(x, name) {
  measure <- sub("_(lower|upper)$", "", name)
  column <- if (endsWith(name, "_lower")) "conf_low" else if (endsWith(name, "_upper")) "conf_high" else "estimate"
  old_word(name, paste0(column, " where measure is ", measure))
  .subset2(x, column)[.subset2(x, "measure") == measure]
}

print.causal_contrast <- function(x, digits = 4, ...) {
  wanted <- c("treated", "control", "measure", "estimate", "conf_low", "conf_high")
  if (!all(wanted %in% names(x))) return(print.data.frame(x, digits = digits, ...))
  arms <- unique(paste0("treated: ", named_arm(x, "treated"), "; control: ", named_arm(x, "control")))
  if (length(arms) == 1) writeLines(arms)
  levels <- names(x)[seq_len(match("treated", names(x)) - 1)]
  print_with_notes(x, shown_measures(x, c(levels, if (length(arms) > 1) c("treated", "control")), digits), ...)
}

# An arm with the name of its exposure.
named_arm <- function(x, arm) {
  exposures <- attr(x, "exposures")
  if (length(exposures) == 1) paste0(exposures, "=", .subset2(x, arm)) else .subset2(x, arm)
}

# A row for each cell, with a column for each measure and its interval as text.
shown_measures <- function(x, levels, digits) {
  text <- function(column) ifelse(is.na(column), "none", trimws(formatC(column, digits = digits, format = "g")))
  shown <- ifelse(is.na(x[["conf_low"]]), text(x[["estimate"]]), paste0(text(x[["estimate"]]), " [", text(x[["conf_low"]]), ", ", text(x[["conf_high"]]), "]"))
  key <- do.call(paste, c(lapply(levels, function(name) as.character(x[[name]])), list(rep("", nrow(x)), sep = "\r")))
  first <- !duplicated(key)
  found <- lapply(stats::setNames(unique(x[["measure"]]), unique(x[["measure"]])), function(measure) {
    here <- x[["measure"]] == measure
    texts <- shown[here][match(key[first], key[here])]
    ifelse(is.na(texts), "", texts)
  })
  frame_of(c(lapply(stats::setNames(levels, levels), function(name) x[[name]][first]), found))
}

# A forest plot: the interval of one measure of each cell.
plot.causal_contrast <- function(x, measure = "difference", ...) {
  has <- unique(x[["measure"]])
  check_word("measure", measure, has)
  shown <- as.data.frame(x)[x[["measure"]] == measure, ]
  drawn_forest(shown, forest_labels(shown), measure, switch(measure, difference = 0, ratio = 1, odds_ratio = 1), ...)
}

# What each line of a forest plot is of.
forest_labels <- function(shown) {
  levels <- seq_len(match("treated", names(shown)) - 1)
  cells <- if (length(levels)) cell_texts(shown, levels) else rep("", nrow(shown))
  arms <- paste(shown$treated, "against", shown$control)
  if (length(unique(arms)) > 1 || !all(nzchar(cells)) || anyDuplicated(cells)) paste0(cells, ifelse(nzchar(cells), ": ", ""), arms) else cells
}

drawn_forest <- function(shown, labels, measure, none, ...) {
  known <- !is.na(shown$estimate) | !is.na(shown$conf_low)
  rows <- rev(seq_len(sum(known)))
  shown <- shown[known, ]
  old <- graphics::par(mai = c(0.8, max(0.4, graphics::strwidth(labels, "inches", cex = 0.8)) + 0.3, 0.4, 0.2))
  on.exit(graphics::par(old))
  graphics::plot.new()
  reach <- range(c(shown$estimate, shown$conf_low, shown$conf_high, none), na.rm = TRUE, finite = TRUE)
  graphics::plot.window(reach, c(0.5, max(length(rows), 1) + 0.5))
  if (!is.null(none)) graphics::abline(v = none, lty = 2, col = "#888888")
  graphics::segments(shown$conf_low, rows, shown$conf_high, rows)
  graphics::points(shown$estimate, rows, pch = 19)
  graphics::axis(1)
  if (length(rows)) graphics::axis(2, at = rows, labels = labels[known], las = 1, tick = FALSE, cex.axis = 0.8)
  graphics::title(xlab = measure, ...)
  invisible(shown)
}
