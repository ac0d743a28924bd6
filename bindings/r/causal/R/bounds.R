# What effects are at least and at most over a table of counts. Each end is the library's; what is made of it as a number of R is rounded.

bounds_effect <- function(diagram, data, x = NULL, y = NULL, given = NULL, instrument = NULL, strata = NULL, count = NULL, exact = FALSE,
                          missing = c("error", "drop", "level"), treated = NULL, control = NULL, outcome = NULL, set = NULL, resamples = 0,
                          level = 0.95, seed = 0, progress = NULL) {
  check_numbers(level, resamples)
  diagram <- as_causal_diagram(diagram)
  check_exposures(diagram, x)
  if (is.null(instrument) && !is.null(strata)) refuse("`strata` are those of an instrument, which `instrument` names")
  if (!is.null(set) && !all(is.null(given), is.null(instrument), is.null(strata)))
    refuse("bounds are asked for by a `set` to adjust for, or under a condition or by an instrument, and not both")
  words <- c(option("x", x), option("y", y), option("given", given), option("instrument", instrument), option("strata", strata),
             option("set", if (!is.null(set)) as.character(set)))
  outcomes <- if (is.null(y)) diagram$vertices$name[diagram$vertices$role == "outcome"] else enc2utf8(as.character(y))
  table <- count_table(diagram, words, data, count, one_of(missing), "bounds", keeps = outcomes)
  asked <- if (is.null(table)) words else c(words, "--count", count_name(table), flag("exact", exact))
  told <- if (is.null(table)) ask_counts(diagram, asked, "", command = "bounds") else ask_table(diagram, asked, table, "bounds")
  object <- object_of(told)
  if (object$answer == "not admissible") return(new_answer("causal_adjustment", read_adjustment(object), told, diagram))
  read <- read_bounds(object)
  if (read$answer == "bounds") {
    drawn <- if (resamples > 0) drawn_bounds(diagram, words, table, read, cells_of_bounds(told$out), resamples, level, seed, progress)
    if (is.null(treated) && is.null(control)) return(bounds_frame(read, table, outcome, drawn))
    return(compared_bounds(read, table, x, treated, control, outcome, drawn))
  }
  if (read$answer == "no instrument")
    return(new_answer("causal_no_instrument", list(holds = FALSE, moved = read$moved, path = read$path), told, diagram))
  new_answer("causal_no_model", list(holds = FALSE, crossed = bounds_frame(read, table)), told, diagram)
}

bounds_frame <- function(read, table, outcome = NULL, drawn = NULL) {
  if (!is.null(drawn)) read[c("conf_low", "conf_high")] <- ends_of_ranges(drawn$least, drawn$most, drawn$level)
  if (!is.null(outcome)) {
    kept <- wanted_cells(read, table, list(y = names(read$y[[1]]), given = names(read$given[[1]]), levels = list()), outcome)
    for (part in c("x", "y", "given", "at_least", "at_most", "conf_low", "conf_high")) read[[part]] <- read[[part]][kept]
  }
  columns <- c(columns_of(read$x, table), columns_of(read$given, table), columns_of(read$y, table))
  ends <- list(at_least = number_in(read$at_least), at_most = number_in(read$at_most))
  if (!is.null(drawn)) ends <- c(ends, read[c("conf_low", "conf_high")])
  if (read$exact) ends <- c(ends, list(at_least_exact = read$at_least, at_most_exact = read$at_most))
  new_bounds(frame_of(c(columns, ends)), table$dropped, drawn)
}

# Where resamples were drawn, with what the intervals rest on.
new_bounds <- function(frame, dropped, drawn) {
  structure(frame, class = c("causal_bounds", "data.frame"), dropped = dropped, level = drawn$level, interval = drawn$interval,
            resamples = drawn$resamples, without_value = drawn$without_value, seed = drawn$seed)
}

# What each effect is at least and at most over resamples of the table, a row for each: NA where a resample has no bounds, since a condition
# has no record, or since they cross.
drawn_bounds <- function(diagram, words, table, read, cells, resamples, level, seed, progress) {
  whole <- unique(unlist(lapply(read[c("x", "y", "given")], function(part) names(part[[1]]))))
  words <- c(words, "--count", count_name(table))
  one <- function(counts) {
    told <- ask_counts(diagram, words, counts_text(table, counts, whole), hand_back = 5, command = "bounds")
    if (told$status != 0) return(rep(NA_real_, 2 * length(read$y)))
    if (!identical(cells_of_bounds(told$out), cells)) refuse("a resample has other cells than the data", kind = "internal")
    c(bounds_in(told$out, "at_least"), bounds_in(told$out, "at_most"))
  }
  values <- function(counts) t(apply(counts, 2, one))
  seed <- seed_or_drawn(seed)
  ends <- with_seed(seed, drawn_worlds(told_by(values, progress, resamples), table, resamples))
  lost <- sum(is.na(ends[, 1]))
  if (lost >= 0.05 * resamples && lost > 0)
    doubt(lost, " of ", resamples, " resamples had no value, so that the intervals are too narrow: bounds cross there, or records are few at some levels")
  first <- seq_along(read$y)
  list(least = ends[, first, drop = FALSE], most = ends[, -first, drop = FALSE], level = level, interval = "percentile", resamples = resamples,
       without_value = lost, seed = seed)
}

# An answer without its ends, which have another form where they are exact.
cells_of_bounds <- function(out) gsub('"(at_least|at_most)":"[0-9./]+"|"exact":(true|false)', "", out)

# Of both arms and of their difference: it is at least what the ends that are farthest apart leave, and no narrower bounds are claimed.
compared_bounds <- function(read, table, x, treated, control, outcome, drawn = NULL) {
  found <- bounds_frame(read, table)
  asked <- list(x = if (is.null(x)) names(read$x[[1]]) else as.character(x), typed = !is.null(x), y = names(read$y[[1]]), given = names(read$given[[1]]), levels = list())
  effects <- list(x = read$x, y = read$y, given = read$given)
  arms <- arms_of(list(effects = effects, table = table, asked = asked), treated, control, outcome)
  told <- lapply(arms, function(places) arm_text(labels_at(table, read$x[[places[1]]])))
  key <- function(places) vapply(places, function(k) paste(c(read$given[[k]], read$y[[k]]), collapse = "\r"), "")
  other <- arms$control[match(key(arms$treated), key(arms$control))]
  ends <- function(at) c(found$at_least[at], found$at_most[at])
  rows <- lapply(seq_along(other), function(k) {
    a <- ends(arms$treated[k])
    b <- ends(other[k])
    levels <- as.list(found)[c(names(read$given[[1]]), names(read$y[[1]]))]
    frame_of(c(lapply(levels, function(column) rep(column[arms$treated[k]], 3)), list(treated = rep(told$treated, 3), control = rep(told$control, 3),
               measure = c("risk_treated", "risk_control", "difference"), at_least = c(a[1], b[1], a[1] - b[2]), at_most = c(a[2], b[2], a[2] - b[1])),
               if (!is.null(drawn)) ends_of_arms(drawn, arms$treated[k], other[k])))
  })
  new_bounds(do.call(rbind, rows), attr(found, "dropped"), drawn)
}

# The intervals of the risks in both arms, and of their difference over the same resamples.
ends_of_arms <- function(drawn, one, other) {
  least <- drawn$least[, c(one, other), drop = FALSE]
  most <- drawn$most[, c(one, other), drop = FALSE]
  ends_of_ranges(cbind(least, least[, 1] - most[, 2]), cbind(most, most[, 1] - least[, 2]), drawn$level)
}

# The nearest number of R to a fraction or to digits.
number_in <- function(texts) {
  vapply(strsplit(texts, "/", fixed = TRUE), function(side) if (length(side) == 1) as.numeric(side) else as.numeric(side[1]) / as.numeric(side[2]), 0)
}

print.causal_bounds <- function(x, ...) print_with_notes(x, x, ...)

as.data.frame.causal_bounds <- function(x, ...) frame_of(as.list(x))

# The levels of a crossing stand in the data, and not in what was asked. (A refusal of this class is a condition.)
print.causal_no_model <- function(x, ...) {
  if (inherits(x, "condition")) return(NextMethod())
  cat("no model of this diagram has these counts: bounds cross\n")
  print(x$crossed, ...)
  invisible(x)
}

# An effect among those for whom other values of the exposures were observed.
treated_effect <- function(diagram, x = NULL, y = NULL, given = NULL, certificate = FALSE) {
  diagram <- as_causal_diagram(diagram)
  check_exposures(diagram, x)
  words <- c(option("x", x), option("y", y), option("given", condition_of(given)$names))
  told <- ask("treated", diagram, words)
  object <- object_of(told)
  if (told$yes) {
    parts <- c(sets_in(object, c("y", "x")), list(given = c(texts(object$given), texts(object$observed))))
    read <- c(list(identifiable = TRUE), read_formula(object), list(trees = read_trees(object), parts = parts), certificate_in_parts("treated", diagram, words, certificate))
    return(new_answer("causal_formula", read, told, diagram))
  }
  new_answer("causal_confounded", c(list(identifiable = FALSE), read_confounded(object)), told, diagram)
}
