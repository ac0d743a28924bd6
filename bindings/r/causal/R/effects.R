# Effects over a table of counts. Each value is the library's; what is made of it as a number of R is rounded.

evaluate <- function(diagram, data, x = NULL, y = NULL, count = NULL, exact = FALSE, missing = c("error", "drop", "level"), at = NULL, set = NULL,
                     given = NULL, back_door = FALSE, zero = TRUE, short = is.null(set), weights = NULL, treated = FALSE) {
  asked <- asked_of(diagram, x, y, set, given, back_door, zero, short, treated)
  table <- table_for(asked, data, count, one_of(missing), at, design_of(weights, NULL, NULL))
  if (isTRUE(exact) && !is.null(table$survey)) refuse("a weighted value is no exact fraction of counts: exact = FALSE")
  narrow <- narrowed(asked, table)
  effects <- effects_of(narrow$asked, narrow$table, exact)
  effects_frame(chosen_cells(effects, wanted_cells(effects, narrow$table, narrow$asked)), narrow$table)
}

# The table of counts that an effect is computed over, with the free variables at their level.
table_for <- function(asked, data, count, missing, at = NULL, design = NULL) {
  table <- count_table(asked$diagram, asked$words, data, count, missing, keeps = asked$y, design = design)
  table <- with_second_names(table, asked$observed)
  table <- pin(table, first_places(table, asked$formula$free, at))
  table$split <- asked$split
  if (is.data.frame(data) || inherits(data, "table")) table$source <- list(data = data, count = count, missing = missing, design = design)
  table
}

# The value at each level at which the formula's free variables may be pinned: in the population all are the same.
pin_spread <- function(diagram, data, x = NULL, y = NULL, count = NULL, exact = FALSE, missing = c("error", "drop", "level"), given = NULL,
                       zero = TRUE, short = FALSE) {
  asked <- asked_of(diagram, x, y, given = given, zero = zero, short = short)
  table <- count_table(asked$diagram, asked$words, data, count, one_of(missing), keeps = asked$y)
  free <- asked$formula$free
  if (!length(free)) refuse("the formula reads no variable beside x and y that could have another level")
  places <- expand.grid(rev(lapply(table$levels[free], level_order)))[rev(seq_along(free))]
  rows <- lapply(seq_len(nrow(places)), function(k) spread_rows(asked, pin(table, unlist(places[k, , drop = FALSE])), free, exact))
  has_value <- !vapply(rows, is.null, NA)
  frame <- if (any(has_value)) do.call(rbind, lapply(rows[has_value], as.data.frame)) else data.frame()
  structure(frame, class = c("causal_spread", "data.frame"), dropped = table$dropped, free = free,
            without_value = lapply(which(!has_value), function(k) labels_at(table, unlist(places[k, , drop = FALSE]))))
}

# The effects at one choice of levels, with these levels in front; NULL where some cell has no value.
spread_rows <- function(asked, table, free, exact) {
  effects <- tryCatch(effects_of(asked, table, exact), causal_evaluation_fault = function(fault) NULL)
  if (is.null(effects)) return(NULL)
  values <- effects_frame(chosen_cells(effects, wanted_cells(effects, table, asked)), table)
  pinned <- lapply(stats::setNames(free, free), function(name) rep(level_of(table, name, 1), nrow(values)))
  frame_of(c(pinned, as.list(values)))
}

# How far the values of one effect are apart at most.
widest <- function(spread) {
  cells <- setdiff(names(spread), c(attr(spread, "free"), "estimate", "fraction", "from", "to"))
  if (!nrow(spread)) return(NA_real_)
  cell <- do.call(paste, c(lapply(spread[cells], function(column) match(column, unique(column))), list(sep = ",")))
  max(tapply(spread$estimate, cell, function(values) diff(range(values))))
}

print.causal_spread <- function(x, ...) {
  if (is.null(attr(x, "free")) || !"estimate" %in% names(x)) return(print.data.frame(x, ...))
  print_with_notes(x, x, ...)
}

# The places of the levels at which the variables are pinned that the formula reads beside x, y and what is given: those that `at` gives,
# or the first in order.
first_places <- function(table, free, at) {
  at <- as.list(at)
  if (length(at) && (is.null(names(at)) || !all(names(at) %in% free) || anyDuplicated(names(at)) || any(lengths(at) != 1)))
    refuse("`at` has one level for each of the variables it names, of ", if (length(free)) paste(free, collapse = ", ") else "which there are none here")
  vapply(stats::setNames(free, free), function(name) {
    levels <- table$levels[[name]]
    if (is.null(at[[name]])) return(level_order(levels)[1])
    place <- place_of_level(levels, at[[name]])
    if (is.na(place)) no_level(name, as.character(at[[name]]), level_labels(levels)[level_order(levels)])
    place
  }, 1L)
}

# The condition that an effect can't be computed from observations, with its hedge.
not_identifiable <- function(hedge) {
  target <- if (is.null(hedge$conditional)) hedge$target else hedge$conditional
  message <- paste0(target, " is not identifiable: no observations determine it. The hedge is in the condition's `hedge`; ",
                    "bounds_effect() says what the effect is at least and at most")
  structure(class = c("causal_not_identifiable", "causal_refusal", "error", "condition"), list(message = message, call = NULL, hedge = hedge))
}

effects_of <- function(asked, table, exact = FALSE) {
  words <- c(asked$words, "--count", count_name(table), flag("exact", exact))
  told <- ask_table(asked$diagram, words, table, hand_back = 5L)
  if (told$status == 5) stop(with_levels(causal_fault(told, list(diagram = asked$diagram$text)), table, asked))
  object <- object_of(told)
  if (object$answer == "path") refuse_treated(object, ": ", asked$x, " has more than two levels in the data")
  if (object$answer == "no model") refuse_less(read_less(object), table, asked)
  c(read_effects(object), list(out = told$out))
}

# That no model has the counts: an effect is less than what was observed of it. The condition has the levels, `less`.
refuse_less <- function(read, table, asked) {
  of <- function(levels) {
    told <- labels_at(table, levels[intersect(asked$diagram$vertices$name, names(levels))])
    paste0(names(told), "=", printed_level(unlist(told)), collapse = ",")
  }
  effect <- paste0("P(", of(c(read$y, read$given)), "|do(", of(read$x), "))")
  refuse("no model of this diagram has these counts: ", effect, " is less than P(", of(c(read$x, read$y, read$given)), ")", kind = "no_model",
         told = list(less = levels_at(table, c(read$x, read$given, read$y, read$observed))))
}

# The cells of effects for which something holds.
chosen_cells <- function(effects, keep) {
  for (part in intersect(c("x", "y", "given", "fraction", "from", "to"), names(effects))) effects[[part]] <- effects[[part]][keep]
  effects
}

# A fault's cell with the levels of the data in place of their numbers, and those of the condition that no record has.
with_levels <- function(fault, table, asked) {
  for (name in names(fault$cell)) fault$cell[[name]] <- level_labels(table$levels[[name]])[as.integer(fault$cell[[name]])]
  hint <- switch(fault$number, "", "; bounds (exact = FALSE) may do", "; exact fractions (exact = TRUE) may do")
  fault$sentence <- paste0(fault$sentence, hint)
  if (!is.null(asked$outer)) {
    asked <- asked$outer
    fault <- fault_of_set(fault, table, asked)
  }
  # (the cell of a fault among the treated has the exposures' own names, which the divisor needn't have)
  divisor <- if (!is.null(fault$cell) && !length(asked$observed)) divisor_at(asked$trees, fault)
  if (!is.null(divisor)) {
    fault$condition <- fault$cell[names(fault$cell) %in% divisor$names]
    at <- paste0(names(fault$condition), "=", fault$condition, collapse = ", ")
    without <- if (is.null(divisor$term)) paste0("a divisor is 0 at ", at) else paste0("no record has ", at, ", which ", divisor$term, " is given")
    fault$sentence <- paste0(without, ", so the effect has no value over these data")
  }
  fault$message <- paste0(fault$sentence, if (fault$number == 1) paste0(". ", remedies(asked, set_with_value(asked, table))))
  fault
}

# The first of some minimal sets whose adjustment formula has a value over the data, where this one has none.
set_with_value <- function(asked, table) {
  if (is.null(table$source) || length(asked$given) || !length(asked$x)) return(NULL)
  has_value <- function(set) {
    other <- asked_of(asked$diagram, asked$x, asked$y, set, zero = TRUE)
    if (asked$zero && identical(other$formula$expression, asked$formula$expression)) return(FALSE)
    its <- suppressWarnings(do.call(table_for, c(list(other), table$source)))
    ask_table(other$diagram, c(other$words, "--count", count_name(its)), its, hand_back = 5L)$status == 0
  }
  for (set in adjustment_sets(asked$diagram, asked$x, asked$y, most = 12)$sets)
    if (tryCatch(has_value(set), causal_refusal = function(it) FALSE)) return(set)
}

# What may have a value where this has none, in the words of the caller.
remedies <- function(asked, set = NULL) {
  if (!is.null(asked$outer)) asked <- asked$outer
  if (!is.null(asked$split)) return("What may help: fewer classes, of which the records are more")
  if (length(asked$observed)) return("What may help: fewer classes; estimate() with `observed` fills in by models")
  tried <- c(if (!asked$zero) "zero = TRUE", if (is.null(asked$set) && !asked$short) "short = TRUE")
  other <- if (is.null(set)) "another `set` of adjustment_sets()" else paste0("set = ", paste(deparse(set, width.cutoff = 500), collapse = " "), " (it has a value)")
  paste0("What may help: ", if (length(tried)) paste0(paste(tried, collapse = ", "), ", "), other, ", fewer classes; ",
         "support() shows where records lack, estimate() fills in by models, and bounds_effect(", bounds_words(asked), ") says what the effect is at least and at most")
}

# The set to adjust for that the formula sums over, as `bounds_effect` takes it; none where all combinations of its levels are too many.
bounds_words <- function(asked) {
  if (isTRUE(asked$is_wide)) return("")
  set <- if (!is.null(asked$set)) as.character(asked$set) else if (!length(asked$given) && length(asked$x)) summed_set(asked)
  if (is.null(asked$set) && !is.null(set) && !adjusts(asked$diagram, set, asked$x, asked$y)$holds) set <- NULL
  if (is.null(set)) "" else paste0("set = ", paste(deparse(set, width.cutoff = 500), collapse = " "))
}

level_of <- function(table, name, code) table$levels[[name]][as.integer(code)]

# Levels by name, those of a factor as text.
levels_at <- function(table, codes) {
  lapply(stats::setNames(names(codes), names(codes)), function(name) {
    level <- level_of(table, name, codes[[name]])
    if (is.factor(level)) as.character(level) else level
  })
}

# The same as texts of which each stands for one level.
labels_at <- function(table, codes) {
  lapply(stats::setNames(names(codes), names(codes)), function(name) level_labels(table$levels[[name]])[as.integer(codes[[name]])])
}

effects_frame <- function(effects, table) {
  columns <- c(columns_of(effects$x, table), columns_of(effects$given, table), columns_of(effects$y, table))
  columns <- c(columns, list(estimate = values_of(effects)), effects[names(effects) %in% c("fraction", "from", "to")])
  structure(frame_of(columns), class = c("causal_effects", "data.frame"), pinned = levels_at(table, effects$pinned), dropped = table$dropped,
            weighted = !is.null(table$survey), strata = table$strata, split = table$split)
}

columns_of <- function(cells, table) {
  names <- if (length(cells)) names(cells[[1]])
  lapply(stats::setNames(names, names), function(name) level_of(table, name, vapply(cells, `[[`, "", name)))
}

# The nearest number of R to a fraction, or to the middle of bounds.
values_of <- function(effects) {
  if (is.null(effects$fraction)) return((as.numeric(effects$from) + as.numeric(effects$to)) / 2)
  sides <- strsplit(effects$fraction, "/", fixed = TRUE)
  vapply(sides, function(side) as.numeric(side[1]) / as.numeric(side[2]), 0)
}

print.causal_effects <- function(x, ...) print_with_notes(x, shown_levels(x), ...)

# Columns between what they rest on; what stands in the columns may be shown otherwise than an answer has it.
print_with_notes <- function(x, shown, ...) {
  writeLines(head_notes(x))
  if (nrow(shown)) print.data.frame(shown, ...)
  writeLines(foot_notes(x))
  invisible(x)
}

