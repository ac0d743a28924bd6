# What values rest on, told wherever they are printed, and columns that had other names.

# Above a table of values.
head_notes <- function(x) {
  pinned <- attr(x, "pinned")
  c(character(), if (length(pinned)) paste0("pinned: ", level_text(pinned), " (in the population every level gives the same)"),
    attr(x, "split"), attr(x, "strata"), if (isTRUE(attr(x, "weighted"))) "weighted; the value is that of the weights, rounded to some 12 digits of their sum",
    if (isTRUE(attr(x, "dropped") > 0)) paste("records left out for missing values:", format(attr(x, "dropped"), big.mark = ",")))
}

# And below it.
foot_notes <- function(x) {
  without <- if (inherits(x, "causal_spread")) attr(x, "without_value")
  c(vapply(without, function(levels) paste0("no value at ", level_text(levels)), ""),
    if (inherits(x, "causal_spread") && nrow(x)) paste("at most", format(widest(x), digits = 4), "apart; in the population every level gives the same"),
    if (inherits(x, c("causal_contrast", "causal_means")) && isTRUE(attr(x, "resamples") > 0)) paste0(interval_note(x), if (!is.null(attr(x, "frequencies"))) paste0("; ", attr(x, "frequencies"))),
    if (inherits(x, "causal_bounds") && "conf_low" %in% names(x))
      c(interval_note(x), "each interval is for the whole range from the lower to the upper bound: computed, and not proved"),
    if ("note" %in% names(x)) row_notes(x))
}

# What is told of some rows, each part for all rows or for each, as one text a row.
joined_notes <- function(parts, rows) {
  vapply(seq_len(rows), function(row) {
    texts <- vapply(parts, function(part) rep_len(part, rows)[row], "")
    paste(texts[nzchar(texts)], collapse = "; ")
  }, "")
}

lost_note <- function(drawn) {
  lost <- sum(is.na(drawn$drawn[, 1]))
  if (lost > 0) paste(lost, "of", nrow(drawn$drawn), "resamples had no value") else ""
}

# What the ends of intervals say of themselves.
end_notes <- function(drawn, estimate, low, high) {
  lacking <- drawn$kind == "bca" & nrow(drawn$drawn) > 0 & is.na(low) & !is.na(estimate)
  ifelse(!is.na(low) & low == high, "an interval of width 0 says nothing: no resample differs",
         ifelse(lacking, "no BCa interval: all resamples lie on one side of the estimate", ""))
}

frequency_note <- function(table) {
  if (!is.null(table$frequencies)) paste0(table$frequencies, " holds frequencies: ", format(sum(table$records), big.mark = ",", scientific = FALSE), " records")
}

# The notes of rows, each once, with what they are of where they aren't of all.
row_notes <- function(x) {
  notes <- x[["note"]]
  lapply_unique <- unique(unlist(strsplit(notes[nzchar(notes)], "; ", fixed = TRUE)))
  vapply(lapply_unique, function(note) paste0("note: ", note), "", USE.NAMES = FALSE)
}

interval_note <- function(x) {
  kind <- if (attr(x, "interval") == "bca") "BCa" else "percentile"
  paste0(100 * attr(x, "level"), "% ", kind, " intervals of ", attr(x, "resamples"), " resamples, of which ", attr(x, "without_value"),
         " had no value", if (!is.null(attr(x, "seed"))) paste0("; seed ", attr(x, "seed")))
}

level_text <- function(levels) {
  texts <- vapply(levels, function(level) replace(as.character(level), is.na(level), "NA"), "")
  paste0(names(levels), "=", printed_level(texts), collapse = ", ")
}

# Columns whose levels print alike, as texts that don't.
shown_levels <- function(x) {
  for (name in names(x)) {
    levels <- if (is.double(x[[name]])) unique(x[[name]])
    if (!is.null(levels) && anyDuplicated(as.character(levels))) x[[name]] <- level_labels(levels)[match(x[[name]], levels)]
  }
  x
}

# Columns between what they rest on; what stands in the columns may be shown otherwise than an answer has it.
print_with_notes <- function(x, shown, ...) {
  writeLines(head_notes(x))
  if (nrow(shown)) print.data.frame(shown, ...)
  writeLines(foot_notes(x))
  invisible(x)
}

# A column by its old name, where it had one.
with_old_names <- function(old) {
  function(x, name) {
    if (name %in% names(x) || !name %in% names(old)) return(.subset2(x, name))
    old_word(name, old[[name]])
    .subset2(x, old[[name]])
  }
}

`$.causal_effects` <- with_old_names(c(value = "estimate"))

`$.causal_spread` <- with_old_names(c(value = "estimate"))

`$.causal_tests` <- with_old_names(c(p = "p_value", effect = "effect_size", largest = "largest_difference", rmsea_lower = "rmsea_low",
                                     rmsea_upper = "rmsea_high"))

# Some rows of an answer with the same columns are one still; some of its columns are a plain data frame. Answers that are bound
# together are one: what each rests on stands in its rows.
`[.causal_rows` <- function(x, ...) {
  found <- NextMethod()
  if (is.data.frame(found) && !identical(names(found), names(x))) class(found) <- "data.frame"
  found
}

rbind.causal_rows <- function(...) do.call(rbind, lapply(list(...), as.data.frame))
